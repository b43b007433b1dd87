//! The way through a function to each of its goals, read from the modules that the prover makes of it.

use std::collections::BTreeMap;

/// A goal with the steps before it, and the places on its way whose facts other goals have too.
#[derive(Debug, PartialEq, Eq)]
pub struct Way {
    pub goal: String,
    /// The type of `c` in the goal's answer, by which it may be given to a law.
    pub given: String,
    pub steps: Vec<String>,
    pub earlier: Vec<String>,
}

/// A state of the function: the one before it, and what is known since.
#[derive(Default)]
struct State {
    before: Option<String>,
    learnt: Vec<String>,
}

/// Where a goal is asked: a state, as it is or as it is shown to answers.
enum Place {
    State(String),
    View(String),
}

/// The fields of records by their names, each with the first word of its type.
type Records = BTreeMap<String, Vec<(String, String)>>;

/// The ways of a function, of its modules `Lts` and `Lts.View`; an error names a goal whose place could not be read.
pub fn ways(lts: &str, view: &str) -> Result<Vec<Way>, String> {
    let states = states(lts);
    let views = records(view);
    let way = |(goal, place): (String, Option<Place>)| {
        let way = place.and_then(|place| way_to(&goal, place, &views, &states));
        way.ok_or_else(|| format!("the place of the goal {goal} could not be read"))
    };
    goals(view).into_iter().map(way).collect()
}

fn way_to(
    goal: &str,
    place: Place,
    views: &Records,
    states: &BTreeMap<String, State>,
) -> Option<Way> {
    let (state, given, earlier) = match place {
        Place::State(state) => (state.clone(), state, Vec::new()),
        Place::View(given) => {
            let before = views.get(&format!("In-{given}"))?;
            let (_, state) = before.iter().find(|(name, _)| name == "before")?;
            let state = state_name(state)?.to_string();
            let earlier = earlier(views, &given);
            (state, given, earlier)
        }
    };
    let steps = steps(states, &state)?;
    let goal = goal.to_string();
    Some(Way {
        goal,
        given,
        steps,
        earlier,
    })
}

/// The places before a view that its goals may go back to.
fn earlier(views: &Records, given: &str) -> Vec<String> {
    let fields = views.get(&format!("Earlier-{given}"));
    let names = fields.into_iter().flatten().map(|(name, _)| name);
    names.filter(|name| *name != given).cloned().collect()
}

/// Each goal with its place: `Named-GOAL` is a statement over `In-PLACE` or `Lts.STATE`.
fn goals(view: &str) -> Vec<(String, Option<Place>)> {
    let mut goals: Vec<(String, Option<Place>)> = Vec::new();
    for line in view.lines().map(str::trim_start) {
        if let Some(named) = line.strip_prefix("abbrev pub Named-") {
            let goal = named.split(' ').next().unwrap_or(named);
            goals.push((goal.to_string(), None));
        } else if let (Some(given), Some((_, place @ None))) =
            (line.strip_prefix("(c : "), goals.last_mut())
        {
            *place = given.split([' ', ')']).next().and_then(place_of);
        }
    }
    goals
}

fn place_of(given: &str) -> Option<Place> {
    let state = state_name(given).map(|state| Place::State(state.to_string()));
    let view = given.strip_prefix("In-");
    state.or_else(|| view.map(|view| Place::View(view.to_string())))
}

/// The name behind that of the module of states: `Lts`, or `Lts-NAME` of a function that calls itself.
fn state_name(name: &str) -> Option<&str> {
    let (module, state) = name.split_once('.')?;
    module.starts_with("Lts").then_some(state)
}

fn records(module: &str) -> Records {
    let mut records = BTreeMap::new();
    let mut current: Option<(usize, String)> = None;
    for line in module.lines() {
        let word = line.trim_start();
        let indent = line.len() - word.len();
        let left = |(outer, _): &(usize, String)| !word.is_empty() && indent <= *outer;
        if let Some(name) = word.strip_prefix("pub record ") {
            let name = name.split(' ').next().unwrap_or(name).to_string();
            records.insert(name.clone(), Vec::new());
            current = Some((indent, name));
        } else if current.as_ref().is_some_and(left) {
            current = None;
        } else if let (Some((_, name)), Some(field)) = (&current, field(word)) {
            records.entry(name.clone()).or_default().push(field);
        }
    }
    records
}

fn field(word: &str) -> Option<(String, String)> {
    let (name, of_type) = word.strip_prefix("pub ")?.split_once(" : ")?;
    let first = of_type.split([' ', '(']).next()?;
    Some((name.to_string(), first.to_string()))
}

fn states(lts: &str) -> BTreeMap<String, State> {
    let mut states = BTreeMap::new();
    for (name, fields) in records(lts) {
        let mut state = State::default();
        for (field, of_type) in fields {
            match field.as_str() {
                "before" => state.before = Some(of_type),
                _ => state.learnt.extend(step(&field, &of_type)),
            }
        }
        states.insert(name, state);
    }
    states
}

/// A step of the source, with the outcome of a test; none where the prover made it up, whose names end in `-1`.
fn step(field: &str, of_type: &str) -> Option<String> {
    let made = ["Own-", "Step-", "Arm-"];
    let made = made.iter().any(|start| of_type.starts_with(start));
    let outcome = if of_type.starts_with("Own-Then") {
        ".true"
    } else if of_type.starts_with("Own-Else") {
        ".false"
    } else {
        ""
    };
    (made && !field.ends_with("-1")).then(|| format!("{field}{outcome}"))
}

/// The steps up to a state, the first one first; none where a state on the way is not there.
fn steps(states: &BTreeMap<String, State>, last: &str) -> Option<Vec<String>> {
    let mut steps = Vec::new();
    let mut at = states.get(last)?;
    loop {
        steps.extend(at.learnt.iter().rev().cloned());
        match &at.before {
            Some(before) => at = states.get(before)?,
            None => break,
        }
    }
    steps.reverse();
    Some(steps)
}

#[cfg(test)]
mod tests {
    use super::*;

    const LTS: &str = "
      pub record Start : Type 0 where
        pub args : Args lifetimes
      pub record Own-Then1 : Type 0 where
        pub true : Nat.x
      pub record After-width : Type 0 where
        pub before : Start
        pub width : Step-After-width before
      pub record After-buffer : Type 0 where
        pub before : After-width
        pub buffer-1 : Own-After-buffer before
      pub record Then1 : Type 0 where
        pub before : After-buffer
        pub if-fits : Own-Then1 before
      pub record Else1 : Type 0 where
        pub before : After-buffer
        pub if-fits : Own-Else1 before
      pub record Past-Then1 : Type 0 where
        pub before : Start
        pub in-arm : Arm-Then1 before
";
    const VIEW: &str = "
      pub record In-After-width : Type 0 where
        pub before : Lts.After-width
        pub type_inv : Typed-After-width before
      pub record In-Then-fits : Type 0 where
        pub before : Lts.Then1 T1'
      pub record Earlier-Then-fits : Type 0 where
        pub After-width : In-After-width
      abbrev pub Named-add-width : Type 0
      Named-add-width =
          (c : In-After-width) →
          asks
      abbrev pub Named-returns : Type 0
      Named-returns =
          (c : In-Then-fits) → gives
      abbrev pub Named-returns-2 : Type 0
      Named-returns-2 =
          (c : Lts.Else1 the-claims the-Pre) → record {
            part : (c : Lts.Start) → gives
      abbrev pub Named-returns-in-arm : Type 0
      Named-returns-in-arm =
          (c : Lts-name.Past-Then1 the-claims) → gives
";

    fn way(goal: &str, given: &str, steps: &[&str], earlier: &[&str]) -> Way {
        let owned = |names: &[&str]| names.iter().map(|name| name.to_string()).collect();
        Way {
            goal: goal.to_string(),
            given: given.to_string(),
            steps: owned(steps),
            earlier: owned(earlier),
        }
    }

    #[test]
    fn each_goal_has_its_way() {
        let expected = [
            way("add-width", "After-width", &["width"], &[]),
            way(
                "returns",
                "Then-fits",
                &["width", "if-fits.true"],
                &["After-width"],
            ),
            way("returns-2", "Else1", &["width", "if-fits.false"], &[]),
            way("returns-in-arm", "Past-Then1", &["in-arm"], &[]),
        ];
        assert_eq!(ways(LTS, VIEW), Ok(Vec::from(expected)));
    }

    #[test]
    fn a_place_that_is_not_read_is_an_error() {
        let unread = |goal: &str| Err(format!("the place of the goal {goal} could not be read"));
        let view = VIEW.replace("(c : In-Then-fits)", "(c : Another)");
        assert_eq!(ways(LTS, &view), unread("returns"));
        let view = VIEW.replace("(c : Lts.Else1 ", "(c : Lts.Else2 ");
        assert_eq!(ways(LTS, &view), unread("returns-2"));
        let lts = LTS.replace("record After-buffer ", "record After-buffer2 ");
        assert_eq!(ways(&lts, VIEW), unread("returns"));
    }
}
