//! Which verb has which option: Table 15 of DSP0214, "Verb and Option Support", by which document
//! 02's request b refuses an option.

use Cell::{X, X1, X2};

/// What a cell of the table says of the option in its row and the verb in its column.
#[derive(Clone, Copy, Debug, PartialEq, Eq)]
enum Cell {
    /// Shall be supported.
    X,
    /// May be supported: note 1 of the table.
    X1,
    /// Should be supported: note 2.
    X2,
    /// Shall not be supported.
    Blank,
}

/// A blank cell.
const __: Cell = Cell::Blank;

/// The table as it is printed: rows by option number, columns by verb number.
#[rustfmt::skip]
const TABLE: [[Cell; 13]; 12] = [
    //                  cd  create delete dump exit help load reset set show start stop version
    /* all         */ [ __, __,    __,    __,  __,  __,  __,  __,   __, X,   __,   __,  __ ],
    /* destination */ [ __, __,    __,    X,   __,  __,  __,  __,   __, __,  __,   __,  __ ],
    /* display     */ [ __, __,    __,    __,  __,  __,  __,  __,   __, X,   __,   __,  __ ],
    /* examine     */ [ X,  X,     X,     X,   X,   X,   X,   X,    X,  X,   X,    X,   X  ],
    /* force       */ [ __, __,    X2,    X1,  __,  __,  X1,  X2,   X2, X1,  X2,   X2,  __ ],
    /* help        */ [ X,  X,     X,     X,   X,   X,   X,   X,    X,  X,   X,    X,   X  ],
    /* keep        */ [ X,  X,     X,     X,   X,   X,   X,   X,    X,  X,   X,    X,   X  ],
    /* level       */ [ __, __,    __,    __,  __,  __,  __,  __,   __, X,   __,   __,  __ ],
    /* output      */ [ X,  X,     X,     X,   X,   X,   X,   X,    X,  X,   X,    X,   X  ],
    /* source      */ [ __, __,    __,    __,  __,  __,  X,   __,   __, __,  __,   __,  __ ],
    /* version     */ [ X,  X,     X,     X,   X,   X,   X,   X,    X,  X,   X,    X,   X  ],
    /* wait        */ [ X,  X,     X,     X,   __,  X,   X,   X,    X,  X,   X,    X,   X  ],
];

/// Options of a verb, one bit for each by its number.
#[derive(Clone, Copy, Debug, PartialEq, Eq)]
pub(crate) struct Options(u16);

impl Options {
    pub(crate) const NONE: Options = Options(0);

    pub(crate) fn has(self, option: u8) -> bool {
        self.0 & (1 << option) != 0
    }

    pub(crate) fn add(&mut self, option: u8) {
        self.0 |= 1 << option;
    }
}

/// The options that a verb can have; a number that is no verb's has none.
pub(crate) fn options_of(verb: u8) -> Options {
    let column = COLUMNS.get(usize::from(verb));
    column.copied().unwrap_or(Options::NONE)
}

/// The table's columns by verb number: each option whose cell is not blank.
const COLUMNS: [Options; 14] = {
    let mut columns = [Options::NONE; 14];
    let mut option = 1;
    while option <= TABLE.len() {
        let row = &TABLE[option - 1];
        let mut verb = 1;
        while verb <= row.len() {
            if !matches!(row[verb - 1], Cell::Blank) {
                columns[verb].0 |= 1 << option;
            }
            verb += 1;
        }
        option += 1;
    }
    columns
};

#[cfg(test)]
mod tests {
    use super::*;
    use crate::vocabulary::{option_number, verb_number};

    /// The verbs whose cells in force's row are of one kind.
    fn force_is(cell: Cell) -> Vec<u8> {
        let row = &TABLE[usize::from(option_number(b"force").unwrap()) - 1];
        let verbs = (1..).zip(row).filter(|&(_, &of_verb)| of_verb == cell);
        verbs.map(|(verb, _)| verb).collect()
    }

    fn verbs(words: &[&str]) -> Vec<u8> {
        let numbers = words.iter().map(|word| verb_number(word.as_bytes()));
        numbers.map(Option::unwrap).collect()
    }

    #[test]
    fn the_notes_name_the_verbs_of_their_cells() {
        assert_eq!(force_is(X1), verbs(&["dump", "load", "show"]));
        let should = ["delete", "reset", "set", "start", "stop"];
        assert_eq!(force_is(X2), verbs(&should));
        let count = |cell| TABLE.iter().flatten().filter(|&&of| of == cell).count();
        assert_eq!([X, X1, X2, __].map(count), [82, 3, 5, 66]);
    }

    #[test]
    fn a_cell_that_is_not_blank_is_had() {
        for (option, row) in (1..).zip(&TABLE) {
            for (verb, &cell) in (1..).zip(row) {
                let has = options_of(verb).has(option);
                assert_eq!(has, cell != __, "verb {verb}, option {option}");
            }
        }
        for verb in (0..=255).filter(|verb| !(1..=13).contains(verb)) {
            assert_eq!(options_of(verb), Options::NONE);
        }
    }
}
