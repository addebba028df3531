//! Counting which rules and which causes a set of inputs meets.

use std::collections::BTreeMap;
use std::fmt::{self, Display};

use crate::invariant::{self, Broken};
use crate::loops::{loops, split};
use crate::operators::says_no;
use crate::state::{most, Actor, ActorNo, Future, Message, Ref, State, Value};
use crate::term::{Invocation, Name, Term};
use crate::{load, print, read, step};

/// The rule that an actor's next move would be by, told from the redex or from the head of the inbox.
#[derive(Clone, Copy, Debug, PartialEq, Eq, PartialOrd, Ord)]
pub enum Rule {
    Let,
    Plus,
    Percent,
    Same,
    /// An if whose second part is taken.
    IfYes,
    /// An if whose third part is taken.
    IfNo,
    Object,
    Isolate,
    Actor,
    Get,
    Set,
    Call,
    /// A call of a method whose name others of the receiver have too.
    CallOfSeveral,
    CallResolve,
    Future,
    SendOwn,
    SendOther,
    SendTwoWay,
    SendResolve,
    SendRegister,
    RegisterNumber,
    RegisterNull,
    TakeWait,
    TakeForward,
    TakeForwardRegister,
    TakeCall,
    TakeTwoWay,
    TakeResolve,
    TakeRegister,
    /// Nothing to do, or no such actor.
    None,
}

impl Rule {
    pub const ALL: [Rule; 30] = [
        Rule::Let,
        Rule::Plus,
        Rule::Percent,
        Rule::Same,
        Rule::IfYes,
        Rule::IfNo,
        Rule::Object,
        Rule::Isolate,
        Rule::Actor,
        Rule::Get,
        Rule::Set,
        Rule::Call,
        Rule::CallOfSeveral,
        Rule::CallResolve,
        Rule::Future,
        Rule::SendOwn,
        Rule::SendOther,
        Rule::SendTwoWay,
        Rule::SendResolve,
        Rule::SendRegister,
        Rule::RegisterNumber,
        Rule::RegisterNull,
        Rule::TakeWait,
        Rule::TakeForward,
        Rule::TakeForwardRegister,
        Rule::TakeCall,
        Rule::TakeTwoWay,
        Rule::TakeResolve,
        Rule::TakeRegister,
        Rule::None,
    ];

    /// The rule for an actor in a state.
    pub fn of(state: &State, actor: u8) -> Rule {
        let Some(mover) = state.actors.get(usize::from(actor)) else { return Rule::None };
        if mover.expression.value().is_some() {
            return mover
                .inbox
                .front()
                .map_or(Rule::None, |message| Rule::of_message(message, mover.future(message.receiver.entity)));
        }
        match mover.expression.redex() {
            Term::Let(..) => Rule::Let,
            Term::Plus(_) => Rule::Plus,
            Term::Percent(_) => Rule::Percent,
            Term::Same(_) => Rule::Same,
            Term::If(parts) if parts[0].value().is_some_and(says_no) => Rule::IfNo,
            Term::If(_) => Rule::IfYes,
            Term::Object(_) => Rule::Object,
            Term::Isolate(_) => Rule::Isolate,
            Term::Actor(_) => Rule::Actor,
            Term::Get(..) => Rule::Get,
            Term::Set(..) => Rule::Set,
            Term::Future(..) => Rule::Future,
            Term::Call(call) if call.name == Name::Resolve => Rule::CallResolve,
            Term::Call(call) if is_of_several(call, mover, actor) => Rule::CallOfSeveral,
            Term::Call(_) => Rule::Call,
            Term::Send(send) => match (send.name, send.receiver.value()) {
                (Name::Register, Some(Value::Number(_))) => Rule::RegisterNumber,
                (Name::Register, Some(Value::Null)) => Rule::RegisterNull,
                (Name::Register, _) => Rule::SendRegister,
                (Name::Resolve, _) => Rule::SendResolve,
                (Name::TwoWay(_), _) => Rule::SendTwoWay,
                (Name::Plain(_), Some(Value::Ref(to))) if to.owner.0 != actor => Rule::SendOther,
                (Name::Plain(_), _) => Rule::SendOwn,
            },
            Term::Value(_) | Term::Var(_) | Term::This => Rule::None,
        }
    }

    fn of_message(message: &Message, future: Option<&Future>) -> Rule {
        match (future, message.name) {
            (Some(Future::Open(_)), _) => Rule::TakeWait,
            (Some(Future::Resolved(_)), Name::Register) => Rule::TakeForwardRegister,
            (Some(Future::Resolved(_)), _) => Rule::TakeForward,
            (None, Name::Plain(_)) => Rule::TakeCall,
            (None, Name::TwoWay(_)) => Rule::TakeTwoWay,
            (None, Name::Resolve) => Rule::TakeResolve,
            (None, Name::Register) => Rule::TakeRegister,
        }
    }
}

/// Whether an own receiver has several methods of the name that is called.
fn is_of_several(call: &Invocation, mover: &Actor, me: u8) -> bool {
    let (Name::Plain(name), Some(Value::Ref(Ref { owner: ActorNo(owner), entity }))) =
        (call.name, call.receiver.value())
    else {
        return false;
    };
    let methods = mover.parts(entity).filter(|_| owner == me).map(|parts| &parts.methods);
    methods.is_some_and(|methods| methods.iter().filter(|method| method.name == name).count() > 1)
}

/// The counts.
#[derive(Debug, Default)]
pub struct Census {
    pub inputs: usize,
    /// Inputs that `loops` refused, by cause.
    pub refused: [usize; 17],
    /// Moves by rule.
    pub moves: BTreeMap<Rule, usize>,
    /// Refused entries by rule and cause.
    pub stopped: BTreeMap<(Rule, u8), usize>,
    /// Inputs in whose run each cause refused an entry.
    pub inputs_stopped: [usize; 17],
    /// Sends that took copies of isolates along.
    pub copying: usize,
    /// Isolates copied.
    pub copies: usize,
    /// Messages that resolving a future sent on.
    pub woken: usize,
    /// For each of `LIMITS`, the most that was reached and the inputs that came to the limit itself.
    reached: [(usize, usize); LIMITS.len()],
    /// The longest listing.
    pub longest: usize,
    /// States seen, each held against the invariant if that was asked for.
    pub states: usize,
}

/// The limits of states, moves aside.
const LIMITS: [(&str, usize); 7] = [
    ("actors", most::ACTORS),
    ("inbox", most::INBOX),
    ("made", most::MADE),
    ("copies", most::COPIES),
    ("body nodes", most::BODY_NODES),
    ("waiting", most::WAITING),
    ("nodes", most::NODES),
];

/// The most of each of `LIMITS` that a state has.
fn sizes(state: &State) -> [usize; LIMITS.len()] {
    let mut sizes = [0; LIMITS.len()];
    for actor in &state.actors {
        let (made, copies, counts) = (actor.made.len(), actor.copies.len(), actor.counts);
        let own = [0, actor.inbox.len(), made, copies, counts.body_nodes, counts.waiting, counts.nodes];
        sizes.iter_mut().zip(own).for_each(|(size, own)| *size = own.max(*size));
    }
    sizes[0] = state.actors.len();
    sizes
}

/// Something that must not happen.
#[derive(Debug)]
pub enum Fault {
    /// A state breaks a condition.
    Broken(Broken),
    /// A refused move changed the state.
    Changed(u8),
    /// Printing what was read gave another text.
    Reprinted,
    /// Taking single steps did not end where the program did.
    Diverged,
}

impl Display for Fault {
    fn fmt(&self, out: &mut fmt::Formatter) -> fmt::Result {
        match self {
            Fault::Broken(broken) => broken.fmt(out),
            Fault::Changed(cause) => write!(out, "a move refused with {cause} changed the state"),
            Fault::Reprinted => out.write_str("the text is printed differently"),
            Fault::Diverged => out.write_str("steps and the program end differently"),
        }
    }
}

impl Census {
    /// Runs an input and counts what happens. With `strict`, every state on the way is tested.
    pub fn add(&mut self, input: &[u8], strict: bool) -> Result<(), Fault> {
        self.inputs += 1;
        let printed = loops(input);
        self.longest = self.longest.max(printed.len());
        if let Some(cause) = refusal(&printed) {
            self.refused[cause] += 1;
        }
        let Some((schedule, text)) = split(input) else { return Ok(()) };
        let Ok(table) = read(text) else { return Ok(()) };
        if print(&table) != text {
            return Err(Fault::Reprinted);
        }
        let Ok(mut state) = load(&table) else { return Ok(()) };
        let (mut stopped, mut reached) = ([false; 17], sizes(&state));
        for actor in schedule {
            if let Err(cause) = self.entry(&mut state, actor, strict)? {
                stopped[usize::from(cause)] = true;
            }
            reached.iter_mut().zip(sizes(&state)).for_each(|(most, size)| *most = size.max(*most));
        }
        for ((most, full), (size, (_, limit))) in self.reached.iter_mut().zip(reached.into_iter().zip(LIMITS)) {
            *most = size.max(*most);
            *full += usize::from(size == limit);
        }
        self.inputs_stopped.iter_mut().zip(stopped).for_each(|(count, stopped)| *count += usize::from(stopped));
        let same = refusal(&printed).is_some() || crate::list(&state) == printed;
        same.then_some(()).ok_or(Fault::Diverged)
    }

    fn entry(&mut self, state: &mut State, actor: u8, strict: bool) -> Result<Result<(), u8>, Fault> {
        let rule = Rule::of(state, actor);
        let before = strict.then(|| state.clone());
        let (copies, waiting) = (total_copies(state), total_waiting(state));
        let answer = step(state, actor);
        self.states += 1;
        match answer {
            Ok(_) => {
                *self.moves.entry(rule).or_default() += 1;
                let more = total_copies(state) - copies;
                self.copying += usize::from(more > 0);
                self.copies += more;
                self.woken += waiting.saturating_sub(total_waiting(state));
            }
            Err(cause) => {
                *self.stopped.entry((rule, cause)).or_default() += 1;
                if before.is_some_and(|before| before != *state) {
                    return Err(Fault::Changed(cause));
                }
            }
        }
        if strict {
            invariant::holds(state).map_err(Fault::Broken)?;
        }
        Ok(answer.map(|_| ()))
    }

    /// By the name of the limit: the most that was reached, the limit, and the inputs that came to it.
    pub fn limits(&self) -> impl Iterator<Item = (&'static str, (usize, usize, usize))> + '_ {
        LIMITS.iter().zip(&self.reached).map(|((name, limit), (most, full))| (*name, (*most, *limit, *full)))
    }

    /// Refused entries with a cause.
    pub fn stops(&self, cause: u8) -> usize {
        self.stopped.iter().filter(|((_, found), _)| *found == cause).map(|(_, count)| count).sum()
    }
}

fn total_copies(state: &State) -> usize {
    state.actors.iter().map(|actor| actor.copies.len()).sum()
}

fn total_waiting(state: &State) -> usize {
    state.actors.iter().map(|actor| actor.counts.waiting).sum()
}

/// The cause that the program printed, if it refused.
fn refusal(printed: &[u8]) -> Option<usize> {
    let cause = printed.strip_prefix(b"(refused ")?.strip_suffix(b")\n")?;
    std::str::from_utf8(cause).ok()?.parse().ok()
}

#[cfg(test)]
mod tests {
    use super::*;

    #[test]
    fn rules_and_causes_are_counted() {
        let mut census = Census::default();
        census.add(b"0000000000000\n(future f r (resolve r 5))\n", true).unwrap();
        census.add(b"0\n(plus 1 null)\n", true).unwrap();
        census.add(b"0\n(plus 1)\n", true).unwrap();
        census.add(b"0000\n(if (same 1 2) 3 (if null 4 (same 5 5)))\n", true).unwrap();
        census.add(b"00\n(if (object) 1 2)\n", true).unwrap();
        census.add(b"0000\n(let o (object (method m () 1) (method m (x) x)) (call o m (call o m)))\n", true).unwrap();
        census.add(b"000\n(let o (object (method m () 1) (method m (x) x)) (call o m 1 2))\n", true).unwrap();
        census.add(b"000\n(let o (object (method m () 1) (method n (x) x)) (call o m))\n", true).unwrap();
        assert_eq!((census.inputs, census.refused[2]), (8, 1));
        assert_eq!(census.moves.values().sum::<usize>(), 12 + 4 + 2 + 4 + 2 + 3);
        assert_eq!([Rule::Call, Rule::CallOfSeveral].map(|rule| census.moves[&rule]), [2, 2]);
        assert_eq!(census.stopped[&(Rule::CallOfSeveral, 12)], 1);
        assert_eq!([Rule::Same, Rule::IfYes, Rule::IfNo].map(|rule| census.moves[&rule]), [2, 1, 2]);
        assert_eq!(census.moves[&Rule::RegisterNumber], 1);
        assert_eq!(census.stopped[&(Rule::Plus, 15)], 1);
        assert_eq!((census.stops(9), census.stops(15), census.stops(16)), (1, 1, 0));
    }
}
