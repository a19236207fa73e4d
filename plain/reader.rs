// From a script to its graph of points and edges.
use crate::words::{Place, Refusal, Word, Words};

pub const MOST_BYTES: usize = 8192;
const MOST_POINTS: usize = 96;
const MOST_LEVELS: usize = 8;
const MOST_NAMES: usize = 8;
const MOST_SIZE: i64 = 65536;

type Read<T> = Result<T, Refusal>;

#[derive(Clone, Copy)]
pub struct Range {
    pub low: i64,
    pub high: i64,
}

// Where a value comes from.
#[derive(Clone, Copy)]
pub enum Source {
    Written,
    Sensed,
    Heard,
}

// What an edge does, by the numbers of the variables.
//   Any(k, r, s): k := any of r, from s          Read(k, i, r): k := t[i], where r is the range of t
//   Shift(k, i, c): k := i + c                   Negate(k, i): k := -i
//   AtMost(i, c): i <= c    AtLeast(i, c): i >= c    Before(i, k, d): i <= k + d
#[derive(Clone, Copy)]
pub enum Action {
    Skip,
    Any(usize, Range, Source),
    Read(usize, usize, Range),
    Shift(usize, usize, i64),
    Negate(usize, usize),
    AtMost(usize, i64),
    AtLeast(usize, i64),
    Before(usize, usize, i64),
}

#[derive(Clone, Copy)]
pub struct Edge {
    pub source: usize,
    pub action: Action,
}

// A table read: the point before it, its index, the size of the table, and where the index name stands.
pub struct Lookup {
    pub point: usize,
    pub index: usize,
    pub size: i64,
    pub place: Place,
}

pub struct Variable {
    pub name: String,
    pub range: Range,
}

struct Table {
    name: String,
    size: i64,
    range: Range,
}

pub struct Graph {
    pub variables: Vec<Variable>,
    pub lookups: Vec<Lookup>,
    // for each point, the edges to it
    pub incoming: Vec<Vec<Edge>>,
}

impl Graph {
    pub fn points(&self) -> usize {
        self.incoming.len()
    }
}

// The two guards of a condition: where it holds, and where it fails.
struct Condition {
    holds: Action,
    fails: Action,
}

fn refuse<T>(number: u8, place: Place) -> Read<T> {
    Err(Refusal {
        number,
        place: Some(place),
    })
}

struct Reader<'a> {
    words: Words<'a>,
    word: Word<'a>,
    place: Place,
    levels: usize,
    tables: Vec<Table>,
    graph: Graph,
    // the statement that is read, and the one that made the first point too many
    statement: Place,
    too_many: Option<Place>,
}

// Reads a script.
pub fn read(script: &[u8]) -> Read<Graph> {
    if script.len() > MOST_BYTES {
        return Err(Refusal {
            number: 1,
            place: None,
        });
    }
    let mut words = Words::new(script);
    let (word, place) = words.next_word();
    let graph = Graph {
        variables: Vec::new(),
        lookups: Vec::new(),
        incoming: vec![Vec::new()],
    };
    let mut reader = Reader {
        words,
        word,
        place,
        levels: 0,
        tables: Vec::new(),
        graph,
        statement: place,
        too_many: None,
    };
    reader.declarations()?;
    reader.statements(0)?;
    if reader.word != Word::End {
        return reader.unexpected();
    }
    match reader.too_many {
        Some(place) => refuse(13, place),
        None => Ok(reader.graph),
    }
}

// Words
impl<'a> Reader<'a> {
    fn pass(&mut self) {
        (self.word, self.place) = self.words.next_word();
    }

    // Refuses the present word.
    fn unexpected<T>(&self) -> Read<T> {
        match self.word {
            Word::Fault(number) => refuse(number, self.place),
            _ => refuse(5, self.place),
        }
    }

    // Passes the sign if it stands here. Says whether it did.
    fn accept(&mut self, sign: &'static str) -> bool {
        let there = self.word == Word::Sign(sign);
        if there {
            self.pass();
        }
        there
    }

    fn expect(&mut self, sign: &'static str) -> Read<()> {
        if self.accept(sign) {
            Ok(())
        } else {
            self.unexpected()
        }
    }

    fn name(&mut self) -> Read<(&'a [u8], Place)> {
        let place = self.place;
        match self.word {
            Word::Name(name) => {
                self.pass();
                Ok((name, place))
            }
            _ => self.unexpected(),
        }
    }

    fn number(&mut self) -> Read<(i64, Place)> {
        let place = self.place;
        match self.word {
            Word::Number(number) => {
                self.pass();
                Ok((number, place))
            }
            _ => self.unexpected(),
        }
    }

    fn constant(&mut self) -> Read<(i64, Place)> {
        let negative = self.accept("-");
        let (number, place) = self.number()?;
        Ok((if negative { -number } else { number }, place))
    }

    fn range(&mut self) -> Read<Range> {
        let (low, _) = self.constant()?;
        self.expect("..")?;
        let (high, place) = self.constant()?;
        if high < low {
            refuse(9, place)
        } else {
            Ok(Range { low, high })
        }
    }
}

// Names
impl Reader<'_> {
    fn find_variable(&self, name: &[u8]) -> Option<usize> {
        self.graph
            .variables
            .iter()
            .position(|variable| variable.name.as_bytes() == name)
    }

    fn find_table(&self, name: &[u8]) -> Option<usize> {
        self.tables
            .iter()
            .position(|table| table.name.as_bytes() == name)
    }

    fn variable_of(&self, name: &[u8], place: Place) -> Read<usize> {
        self.find_variable(name)
            .map_or_else(|| refuse(8, place), Ok)
    }

    fn variable(&mut self) -> Read<usize> {
        match self.word {
            Word::Name(name) => {
                let variable = self.variable_of(name, self.place)?;
                self.pass();
                Ok(variable)
            }
            _ => self.unexpected(),
        }
    }

    // A name that is to be declared, where so many of its sort are declared already.
    fn new_name(&mut self, count: usize) -> Read<String> {
        if let Word::Name(name) = self.word {
            if self.find_variable(name).is_some() || self.find_table(name).is_some() {
                return refuse(7, self.place);
            }
            if count == MOST_NAMES {
                return refuse(12, self.place);
            }
        }
        let (name, _) = self.name()?;
        Ok(String::from_utf8_lossy(name).into_owned())
    }
}

// Declarations
impl Reader<'_> {
    fn declarations(&mut self) -> Read<()> {
        loop {
            if self.accept("var") {
                self.declare_variable()?;
            } else if self.accept("table") {
                self.declare_table()?;
            } else {
                return Ok(());
            }
        }
    }

    fn ending(&mut self) -> Read<Range> {
        self.expect("=")?;
        let range = self.range()?;
        self.expect(";")?;
        Ok(range)
    }

    fn declare_variable(&mut self) -> Read<()> {
        let name = self.new_name(self.graph.variables.len())?;
        let range = self.ending()?;
        self.graph.variables.push(Variable { name, range });
        Ok(())
    }

    fn declare_table(&mut self) -> Read<()> {
        let name = self.new_name(self.tables.len())?;
        self.expect("[")?;
        let (size, place) = self.number()?;
        if size == 0 || size > MOST_SIZE {
            return refuse(10, place);
        }
        self.expect("]")?;
        let range = self.ending()?;
        self.tables.push(Table { name, size, range });
        Ok(())
    }
}

// Points and edges
impl Reader<'_> {
    fn edge(&mut self, source: usize, target: usize, action: Action) {
        self.graph.incoming[target].push(Edge { source, action });
    }

    // An edge to a fresh point.
    fn edge_on(&mut self, source: usize, action: Action) -> usize {
        let point = self.graph.incoming.len();
        if point == MOST_POINTS {
            self.too_many = Some(self.statement);
        }
        self.graph.incoming.push(vec![Edge { source, action }]);
        point
    }

    // A table read by an index.
    fn lookup(
        &mut self,
        point: usize,
        target: usize,
        table: usize,
        index: usize,
        place: Place,
    ) -> usize {
        let Table { size, range, .. } = self.tables[table];
        self.graph.lookups.push(Lookup {
            point,
            index,
            size,
            place,
        });
        let behind = self.edge_on(point, Action::AtLeast(index, 0));
        let behind = self.edge_on(behind, Action::AtMost(index, size - 1));
        self.edge_on(behind, Action::Read(target, index, range))
    }
}

// Statements: each starts at a point and answers the one where it ends.
impl Reader<'_> {
    fn statements(&mut self, start: usize) -> Read<usize> {
        let mut point = start;
        loop {
            let statement = self.place;
            self.statement = statement;
            point = match self.word {
                Word::Sign("if") => self.choice(point, statement)?,
                Word::Sign("while") => self.repetition(point, statement)?,
                Word::Name(_) => self.assignment(point)?,
                _ => return Ok(point),
            };
        }
    }

    fn block(&mut self, start: usize) -> Read<usize> {
        if self.word == Word::Sign("{") && self.levels == MOST_LEVELS {
            return refuse(6, self.place);
        }
        self.expect("{")?;
        self.levels += 1;
        let end = self.statements(start)?;
        self.expect("}")?;
        self.levels -= 1;
        Ok(end)
    }

    fn choice(&mut self, start: usize, statement: Place) -> Read<usize> {
        self.pass();
        let condition = self.condition()?;
        let first = self.edge_on(start, condition.holds);
        let first = self.block(first)?;
        self.statement = statement;
        let mut second = self.edge_on(start, condition.fails);
        if self.accept("else") {
            second = self.block(second)?;
            self.statement = statement;
        }
        let join = self.edge_on(first, Action::Skip);
        self.edge(second, join, Action::Skip);
        Ok(join)
    }

    fn repetition(&mut self, start: usize, statement: Place) -> Read<usize> {
        self.pass();
        let condition = self.condition()?;
        let head = self.edge_on(start, Action::Skip);
        let body = self.edge_on(head, condition.holds);
        let end = self.block(body)?;
        self.edge(end, head, Action::Skip);
        self.statement = statement;
        Ok(self.edge_on(head, condition.fails))
    }

    fn assignment(&mut self, start: usize) -> Read<usize> {
        let target = self.variable()?;
        self.expect(":=")?;
        let end = self.side(start, target)?;
        self.expect(";")?;
        Ok(end)
    }

    // The right side of an assignment.
    fn side(&mut self, start: usize, target: usize) -> Read<usize> {
        let action = if self.accept("hear") {
            Action::Any(target, self.range()?, Source::Heard)
        } else if self.accept("sense") {
            Action::Any(target, self.range()?, Source::Sensed)
        } else if self.accept("-") {
            match self.word {
                Word::Name(_) => Action::Negate(target, self.variable()?),
                _ => written(target, -self.number()?.0),
            }
        } else if let Word::Number(number) = self.word {
            self.pass();
            written(target, number)
        } else {
            return self.named_side(start, target);
        };
        Ok(self.edge_on(start, action))
    }

    // One that begins with a name: a copy, a sum, a difference or a table read.
    fn named_side(&mut self, start: usize, target: usize) -> Read<usize> {
        let (name, place) = self.name()?;
        if self.word == Word::Sign("[") {
            let Some(table) = self.find_table(name) else {
                return refuse(8, place);
            };
            self.pass();
            let place = self.place;
            let index = self.variable()?;
            self.expect("]")?;
            return Ok(self.lookup(start, target, table, index, place));
        }
        let source = self.variable_of(name, place)?;
        let shift = if self.accept("+") {
            self.number()?.0
        } else if self.accept("-") {
            -self.number()?.0
        } else {
            0
        };
        Ok(self.edge_on(start, Action::Shift(target, source, shift)))
    }

    fn operator(&mut self) -> Read<&'static str> {
        match self.word {
            Word::Sign(sign @ ("<" | "<=" | ">" | ">=")) => {
                self.pass();
                Ok(sign)
            }
            _ => self.unexpected(),
        }
    }

    fn condition(&mut self) -> Read<Condition> {
        let first = self.variable()?;
        let operator = self.operator()?;
        let place = self.place;
        if let Word::Name(_) = self.word {
            let second = self.variable()?;
            if first == second {
                return refuse(11, place);
            }
            Ok(between(first, operator, second))
        } else {
            let (constant, _) = self.constant()?;
            Ok(against(first, operator, constant))
        }
    }
}

fn written(target: usize, constant: i64) -> Action {
    Action::Any(
        target,
        Range {
            low: constant,
            high: constant,
        },
        Source::Written,
    )
}

// A comparison of two variables.
fn between(i: usize, operator: &str, k: usize) -> Condition {
    let (holds, fails) = match operator {
        "<" => (Action::Before(i, k, -1), Action::Before(k, i, 0)),
        "<=" => (Action::Before(i, k, 0), Action::Before(k, i, -1)),
        ">" => (Action::Before(k, i, -1), Action::Before(i, k, 0)),
        _ => (Action::Before(k, i, 0), Action::Before(i, k, -1)),
    };
    Condition { holds, fails }
}

// A comparison of a variable with a constant.
fn against(i: usize, operator: &str, c: i64) -> Condition {
    let (holds, fails) = match operator {
        "<" => (Action::AtMost(i, c - 1), Action::AtLeast(i, c)),
        "<=" => (Action::AtMost(i, c), Action::AtLeast(i, c + 1)),
        ">" => (Action::AtLeast(i, c + 1), Action::AtMost(i, c)),
        _ => (Action::AtLeast(i, c), Action::AtMost(i, c - 1)),
    };
    Condition { holds, fails }
}
