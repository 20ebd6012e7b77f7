//! The stored updates, their standings, the marks, and what is read from the held updates.

use crate::sha256::sha256;
use crate::update::{read_update, Id, Operation, Tag, Update, ZERO};
use std::collections::{BTreeMap, BTreeSet};

/// "There are 64 places."
pub const PLACES: usize = 64;

/// A set of places.
type Places = [bool; PLACES];

#[derive(Clone, Copy, PartialEq, Eq, Debug)]
pub enum Standing {
    Held,
    Waiting,
    Void,
}

impl Standing {
    pub fn word(self) -> &'static str {
        match self {
            Standing::Held => "held",
            Standing::Waiting => "waiting",
            Standing::Void => "void",
        }
    }

    /// Document 02's E1 and E3: "0 held, 1 waiting, 2 void"
    pub fn byte(self) -> u8 {
        match self {
            Standing::Held => 0,
            Standing::Waiting => 1,
            Standing::Void => 2,
        }
    }
}

/// "The full report is had by naming it."
#[derive(Clone, Copy, PartialEq, Eq, Debug)]
pub enum Form {
    Full,
    Short,
}

#[derive(Clone, Copy, PartialEq, Eq, Debug)]
pub enum Answer {
    Taken { standing: Standing, newly_held: usize, newly_void: usize },
    Known { standing: Standing },
    Refused { number: u32 },
}

struct Stored {
    id: Id,
    update: Update,
}

/// The standings of all stored updates, with the ancestors of the held ones.
struct Settlement {
    standing: [Standing; PLACES],
    ancestors: [Places; PLACES],
}

impl Settlement {
    fn count(&self, standing: Standing, taken: usize) -> usize {
        self.standing[..taken].iter().filter(|&&s| s == standing).count()
    }
}

pub struct Ledger {
    stored: Vec<Stored>,
    place_of: BTreeMap<Id, usize>,
    settlement: Settlement,
}

impl Default for Ledger {
    fn default() -> Self {
        Ledger::new()
    }
}

impl Ledger {
    /// A fresh ledger, no place taken.
    pub fn new() -> Ledger {
        let settlement = Settlement { standing: [Standing::Waiting; PLACES], ancestors: [[false; PLACES]; PLACES] };
        Ledger { stored: Vec::new(), place_of: BTreeMap::new(), settlement }
    }

    /// "Offers check 1 to 10 in that order; a known id gets its standing before 10."
    /// Row 1 cannot arise here: the ledger and its store are one value.
    pub fn offer(&mut self, bytes: &[u8]) -> Answer {
        let update = match read_update(bytes) {
            Ok(update) => update,
            Err(number) => return Answer::Refused { number },
        };
        let id = sha256(bytes);
        // "a known update changes nothing"
        if let Some(&place) = self.place_of.get(&id) {
            return Answer::Known { standing: self.settlement.standing[place] };
        }
        // 10: "well formed, id unknown, 64 places taken"
        if self.stored.len() == PLACES {
            return Answer::Refused { number: 10 };
        }
        // "Every distinct well-formed update takes the next one and keeps it"
        let place = self.stored.len();
        self.stored.push(Stored { id, update });
        self.place_of.insert(id, place);
        // "Every offer settles all stored updates. The counts in its answer are held after less
        // held before, and void after less void before."
        let after = self.settle();
        let taken = self.stored.len();
        let newly_held = after.count(Standing::Held, taken) - self.settlement.count(Standing::Held, place);
        let newly_void = after.count(Standing::Void, taken) - self.settlement.count(Standing::Void, place);
        self.settlement = after;
        Answer::Taken { standing: self.settlement.standing[place], newly_held, newly_void }
    }

    /// "For a set of updates [..] these are the least sets that satisfy": from nothing held and
    /// nothing void, apply the two rules until neither gives anything new.
    fn settle(&self) -> Settlement {
        let taken = self.stored.len();
        let mut settlement = Settlement { standing: [Standing::Waiting; PLACES], ancestors: [[false; PLACES]; PLACES] };
        // The places of each update's predecessors, None for one that is missing.
        let predecessors: Vec<Vec<Option<usize>>> = self
            .stored
            .iter()
            .map(|s| s.update.predecessors.iter().map(|p| self.place_of.get(p).copied()).collect())
            .collect();
        loop {
            let mut changed = false;
            for place in 0..taken {
                // "Waiting: every other update of the set."
                if settlement.standing[place] != Standing::Waiting {
                    continue;
                }
                let all = &predecessors[place];
                let has = |p: &Option<usize>, s: Standing| p.is_some_and(|p| settlement.standing[p] == s);
                // "Void: some predecessor is void (others may be missing)"
                if all.iter().any(|p| has(p, Standing::Void)) {
                    settlement.standing[place] = Standing::Void;
                    changed = true;
                    continue;
                }
                if !all.iter().all(|p| has(p, Standing::Held)) {
                    continue;
                }
                let held: Vec<usize> = all.iter().map(|p| p.unwrap()).collect();
                // "Ancestors are what predecessors reach, the update itself not counted."
                let mut ancestors = [false; PLACES];
                for &p in &held {
                    ancestors[p] = true;
                    for a in 0..PLACES {
                        ancestors[a] |= settlement.ancestors[p][a];
                    }
                }
                // "no predecessor is an ancestor of another"
                let antichain = held.iter().all(|&p| held.iter().all(|&q| !settlement.ancestors[q][p]));
                // "Held: all predecessors are held, no predecessor is an ancestor of another, and
                // the operation is valid." "Void: [..] or all are held and the antichain rule or
                // the operation fails."
                settlement.standing[place] = if antichain && self.valid(place, &ancestors) {
                    settlement.ancestors[place] = ancestors;
                    Standing::Held
                } else {
                    Standing::Void
                };
                changed = true;
            }
            if !changed {
                return settlement;
            }
        }
    }

    /// "Validity looks at ancestors only."
    fn valid(&self, place: usize, ancestors: &Places) -> bool {
        let ancestor = |id: &Id| -> Option<&Operation> {
            let &at = self.place_of.get(id)?;
            ancestors[at].then(|| &self.stored[at].update.operation)
        };
        let ancestor_insert = |id: &Id| matches!(ancestor(id), Some(Operation::Insert { .. }));
        match &self.stored[place].update.operation {
            // "Add: always valid."
            Operation::Add { .. } => true,
            // "Remove: each named id is an ancestor, an Add, of the same tag; m = 0 is valid"
            Operation::Remove { tag, named } => {
                named.iter().all(|id| matches!(ancestor(id), Some(Operation::Add { tag: added }) if added == tag))
            }
            // "Insert: anchor zero, or an ancestor Insert."
            Operation::Insert { anchor, .. } => *anchor == ZERO || ancestor_insert(anchor),
            // "Delete: an ancestor Insert; deleting twice is valid."
            Operation::Delete { named } => ancestor_insert(named),
        }
    }

    /// The places with this standing, ascending by id.
    fn with(&self, standing: Standing) -> Vec<usize> {
        // `place_of` runs through its ids in ascending order.
        self.place_of.values().copied().filter(|&p| self.settlement.standing[p] == standing).collect()
    }

    fn is_ancestor(&self, ancestor: usize, of: usize) -> bool {
        self.settlement.ancestors[of][ancestor]
    }

    /// "For an update, its rank is the number of its ancestors."
    fn rank(&self, place: usize) -> usize {
        self.settlement.ancestors[place].iter().filter(|&&a| a).count()
    }

    /// "Heads: held updates that are no held update's ancestor."
    fn heads(&self) -> Vec<usize> {
        let held = self.with(Standing::Held);
        held.iter().copied().filter(|&h| !held.iter().any(|&u| self.is_ancestor(h, u))).collect()
    }

    /// "Forks are found as before": "an author with two held updates, neither an ancestor of the other."
    fn forked(&self) -> BTreeSet<u8> {
        let held = self.with(Standing::Held);
        let mut authors = BTreeSet::new();
        for &a in &held {
            for &b in &held {
                let author = self.stored[a].update.author;
                if a != b
                    && author == self.stored[b].update.author
                    && !self.is_ancestor(a, b)
                    && !self.is_ancestor(b, a)
                {
                    authors.insert(author);
                }
            }
        }
        authors
    }

    /// "An author is marked for a fault if an update of theirs is void while all its predecessors are held."
    fn faulty(&self) -> BTreeSet<u8> {
        let held = |id: &Id| self.standing(id) == Some(Standing::Held);
        self.with(Standing::Void)
            .into_iter()
            .map(|p| &self.stored[p].update)
            .filter(|update| update.predecessors.iter().all(held))
            .map(|update| update.author)
            .collect()
    }

    /// "Mark lines become `(author fork)`, `(author fault)` or `(author both)`."
    fn marks(&self) -> BTreeMap<u8, &'static str> {
        let (forked, faulty) = (self.forked(), self.faulty());
        forked
            .union(&faulty)
            .map(|author| match (forked.contains(author), faulty.contains(author)) {
                (true, true) => (*author, "both"),
                (true, false) => (*author, "fork"),
                (false, _) => (*author, "fault"),
            })
            .collect()
    }

    /// "Set: the tags with a held Add that no held Remove names.", and document 02's E5: "Count a set
    /// entry as the same only if tag and adding author both agree.", "ordered by tag, then author".
    fn set(&self) -> BTreeSet<(Tag, u8)> {
        let held = self.with(Standing::Held);
        let mut removed: BTreeSet<Id> = BTreeSet::new();
        for &u in &held {
            if let Operation::Remove { named, .. } = &self.stored[u].update.operation {
                removed.extend(named);
            }
        }
        let mut entries = BTreeSet::new();
        for &u in &held {
            if let Operation::Add { tag } = &self.stored[u].update.operation {
                if !removed.contains(&self.stored[u].id) {
                    entries.insert((*tag, self.stored[u].update.author));
                }
            }
        }
        entries
    }

    /// "List: a tree, each Insert under its anchor"
    fn list(&self) -> Vec<Tag> {
        let held = self.with(Standing::Held);
        let mut deleted: BTreeSet<Id> = BTreeSet::new();
        for &u in &held {
            if let Operation::Delete { named } = &self.stored[u].update.operation {
                deleted.insert(*named);
            }
        }
        let mut values = Vec::new();
        self.walk(&ZERO, &held, &deleted, &mut values);
        values
    }

    /// "walked parent first, all that hangs under an entry before its next sibling"
    fn walk(&self, parent: &Id, held: &[usize], deleted: &BTreeSet<Id>, values: &mut Vec<Tag>) {
        let mut siblings: Vec<(usize, Id, Tag)> = Vec::new();
        for &u in held {
            if let Operation::Insert { anchor, value } = &self.stored[u].update.operation {
                if anchor == parent {
                    siblings.push((self.rank(u), self.stored[u].id, *value));
                }
            }
        }
        // "Among siblings higher rank comes first, then the larger id."
        siblings.sort();
        siblings.reverse();
        for (_, id, value) in &siblings {
            // "Deleted entries are left out of the list, their children stay."
            if !deleted.contains(id) {
                values.push(*value);
            }
            self.walk(id, held, deleted, values);
        }
    }

    /// "nested brackets with one form a line"; the short form has "only those three parts, in the old
    /// order, between the same outer brackets"
    pub fn report(&self, form: Form) -> Vec<u8> {
        let mut out = String::from("(ledger 1\n");
        if form == Form::Full {
            self.part(&mut out, "held", Standing::Held);
            out += "(heads\n";
            for h in self.heads() {
                out += &format!("({})\n", hex(&self.stored[h].id));
            }
            out += ")\n";
            self.part(&mut out, "waiting", Standing::Waiting);
            self.part(&mut out, "void", Standing::Void);
        }
        out += "(marks\n";
        for (author, word) in self.marks() {
            out += &format!("({author} {word})\n");
        }
        out += ")\n(set\n";
        for (tag, author) in self.set() {
            out += &format!("({} {author})\n", hex(&tag));
        }
        out += ")\n(list\n";
        for value in self.list() {
            out += &format!("({})\n", hex(&value));
        }
        out += ")\n)\n";
        out.into_bytes()
    }

    /// "Held, waiting and void have lines `(ID author)`"
    fn part(&self, out: &mut String, name: &str, standing: Standing) {
        *out += &format!("({name}\n");
        for p in self.with(standing) {
            *out += &format!("({} {})\n", hex(&self.stored[p].id), self.stored[p].update.author);
        }
        *out += ")\n";
    }

    /// The stored ids, ascending, each with its standing.
    pub fn standings(&self) -> Vec<(Id, Standing)> {
        self.place_of.iter().map(|(&id, &p)| (id, self.settlement.standing[p])).collect()
    }

    /// The standing of the stored update with this id.
    pub fn standing(&self, id: &Id) -> Option<Standing> {
        self.place_of.get(id).map(|&p| self.settlement.standing[p])
    }
}

/// Lowercase hexadecimal digits.
pub fn hex(bytes: &[u8]) -> String {
    let digit = |d: u8| char::from_digit(d as u32, 16).unwrap();
    bytes.iter().flat_map(|&b| [digit(b >> 4), digit(b & 15)]).collect()
}

#[cfg(test)]
mod tests {
    use super::*;
    use crate::command::read_offer;

    /// The README's example, its short report by hand.
    #[test]
    fn the_short_report() {
        assert_eq!(Ledger::new().report(Form::Short), b"(ledger 1\n(marks\n)\n(set\n)\n(list\n)\n)\n");
        let mut ledger = Ledger::new();
        let mut offered = Vec::new();
        for line in include_str!("../../tests/sessions/example.in").lines() {
            if read_offer(line.as_bytes(), &mut offered) {
                ledger.offer(&offered);
            }
        }
        let set = ["6d6f6e2031302d31322e2e2e2e2e2e2e 1", "6d6f6e2031302d31322e2e2e2e2e2e2e 6"];
        let list = [
            "6f6174732e2e2e2e2e2e2e2e2e2e2e2e",
            "6261726c65792e2e2e2e2e2e2e2e2e2e",
            "7279652e2e2e2e2e2e2e2e2e2e2e2e2e",
        ];
        let lines = |part: &[&str]| part.iter().map(|line| format!("({line})\n")).collect::<String>();
        let short = format!("(ledger 1\n(marks\n(1 fork)\n(5 fault)\n)\n(set\n{})\n(list\n{})\n)\n", lines(&set), lines(&list));
        assert_eq!(String::from_utf8(ledger.report(Form::Short)).unwrap(), short);
    }
}
