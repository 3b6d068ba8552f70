/* The operation evaluate over the gates of opened.h. To be included after it and work.h. */
/* The tokens of all gates, after the inputs' tokens. */
INLINE void evaluate_gates(unsigned scheme, const uint8_t *circuit, const struct sizes *z, const uint8_t *at, uint8_t *wires)
{
    const uint8_t *record = circuit + 8;
    size_t end = z->n + z->q, step = 4 + 16 * rows_of(scheme);
    for (size_t g = z->n + 1; g <= end; g++, record += 7) {
        block a = block_load(wires + 16 * (number16(record + 2) - 1));
        block b = block_load(wires + 16 * (number16(record + 4) - 1));
        block x = open_free(record[6], a, b);
        if (!is_free(record[6])) {
            x = scheme >= 3 ? open_half(scheme, g, a, b, at + 4) : open_row(scheme, g, a, b, at + 4);
            at += step;
        }
        block_store(wires + 16 * (g - 1), x);
    }
}

uint8_t NAME(evaluate)(const uint8_t *circuit, size_t length, const uint8_t *tokens, size_t tokens_length,
                       const uint8_t *material, size_t material_room, uint8_t *wires, size_t wires_room,
                       uint64_t answer[4])
{
    struct sizes z;
    uint64_t place;
    unsigned number = check_circuit(circuit, length, &z, &place);
    if (number != 0)
        return answered(answer, number, place, 0);
    if (tokens_length != 16 * z.n)
        return answered(answer, 11, tokens_length, 0);
    number = check_material(circuit, &z, material, material_room, &place);
    if (number != 0)
        return answered(answer, number, place, 0);
    if (wires_room < 16 * (z.n + z.q))
        return answered(answer, 19, 16 * (z.n + z.q), 0);
    memcpy(wires, tokens, 16 * z.n);
    if (material[2] == 1)
        evaluate_gates(1, circuit, &z, material + 9, wires);
    else if (material[2] == 2)
        evaluate_gates(2, circuit, &z, material + 9, wires);
    else if (material[2] == 3)
        evaluate_gates(3, circuit, &z, material + 9, wires);
    else
        evaluate_gates(4, circuit, &z, material + 9, wires);
    return answered(answer, 0, material[2] >= 3 ? 2 * z.p : z.p, 0);
}
