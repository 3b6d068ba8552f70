//! docs/EXCHANGE.md as it is typed: each command is a process of its own, in the folder of its side, and must print what the page
//! says. Then each file is damaged, and what happens must be what the page's table says.

mod program;
mod exchange {
    mod claims;
    mod damage;
    mod page;
    mod readers;
    mod rows;
    mod typed;
    mod whole;
}
