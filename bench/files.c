/* The refusals of circuits and material. */
#include "files.h"

static unsigned refuse(uint64_t *place, uint64_t at, unsigned number)
{
    *place = at;
    return number;
}

/* Refusals 5 to 7: the search over the gate records. Counts the charged gates. */
static unsigned check_gates(const uint8_t *circuit, struct sizes *z, uint64_t *place)
{
    const uint8_t *record = circuit + 8;
    size_t end = z->n + z->q;
    for (size_t own = z->n + 1; own <= end; own++, record += 7) {
        unsigned a = number16(record + 2), b = number16(record + 4), code = record[6];
        if (record[0] != 0x43 || record[1] != 0x47)
            return refuse(place, own, 5);
        if (a < 1 || a >= b || b >= own)
            return refuse(place, own, 6);
        if (!(is_charged(code) | is_free(code)))
            return refuse(place, own, 7);
        z->p += is_charged(code);
    }
    return 0;
}

/* Refusals 25 and 26: the search over the output records. */
static unsigned check_outputs(const uint8_t *circuit, const struct sizes *z, uint64_t *place)
{
    const uint8_t *record = circuit + 8 + 7 * z->q;
    for (size_t output = 1; output <= z->m; output++, record += 4) {
        unsigned wire = number16(record + 2);
        if (record[0] != 0x43 || record[1] != 0x4F)
            return refuse(place, output, 25);
        if (wire < 1 || wire > z->n + z->q)
            return refuse(place, output, 26);
    }
    return 0;
}

unsigned check_circuit(const uint8_t *circuit, size_t length, struct sizes *z, uint64_t *place)
{
    if (length < 8)
        return refuse(place, length, 1);
    unsigned named = is_named(circuit);
    if (circuit[0] != 0x43 || (circuit[1] != 0x48 && !named))
        return refuse(place, 0, 2);
    *z = (struct sizes){number16(circuit + 2), number16(circuit + 4), number16(circuit + 6), 0};
    size_t most = named ? z->n + z->q : z->q;
    if (z->n < 2 || z->n > 4096 || z->m < 1 || z->m > most || z->q < 1 || z->n + z->q > 65535)
        return refuse(place, 2, 3);
    if (length != 8 + 7 * z->q + (named ? 4 * z->m : 0))
        return refuse(place, length, 4);
    unsigned number = check_gates(circuit, z, place);
    return number == 0 && named ? check_outputs(circuit, z, place) : number;
}

/* Whether a last record is wrong: its mark, or a colour over 1. Hashes are any bytes. */
static unsigned last_wrong(const uint8_t *record, size_t m, unsigned hashed)
{
    unsigned wrong = record[0] != 0x47 || record[1] != (hashed ? 0x41 : 0x44);
    for (size_t i = 0; i < m && !hashed; i++)
        wrong |= record[2 + i] > 1;
    return wrong;
}

/* Refusals 17 and 18: the row record of each charged gate, and the last record. */
static unsigned check_records(const uint8_t *circuit, const struct sizes *z, const uint8_t *material, uint64_t *place)
{
    size_t step = 4 + 16 * rows_of(material[2]), end = z->n + z->q;
    const uint8_t *code = circuit + 14, *record = material + 9;
    for (size_t own = z->n + 1; own <= end; own++, code += 7) {
        if (!is_charged(*code))
            continue;
        if (record[0] != 0x47 || record[1] != 0x54 || number16(record + 2) != own)
            return refuse(place, own, 17);
        record += step;
    }
    return last_wrong(record, z->m, is_hashed(material)) ? refuse(place, (uint64_t)(record - material), 18) : 0;
}

unsigned check_material(const uint8_t *circuit, const struct sizes *z, const uint8_t *material, size_t length,
                        uint64_t *place)
{
    if (length < 9)
        return refuse(place, length, 12);
    if (material[0] != 0x47 || (material[1] != 0x48 && !is_hashed(material)))
        return refuse(place, 0, 13);
    if (material[2] < 1 || material[2] > 4)
        return refuse(place, material[2], 14);
    if (number16(material + 3) != z->n || number16(material + 5) != z->m || number16(material + 7) != z->q)
        return refuse(place, 3, 15);
    if (length != material_length(z, material[2], is_hashed(material)))
        return refuse(place, length, 16);
    return check_records(circuit, z, material, place);
}
