//! What each refusal means, whom it speaks to and what helps (01, "Who can be told no, and why").

pub struct Refusal {
    pub number: i64,
    pub to: &'static str,
    pub meaning: &'static str,
    pub advice: &'static str,
}

const DRAWER: &str = "whoever draws up the plan";
const NAMER: &str = "whoever names a side";
const EDITOR: &str = "whoever enters the edit";
const RUNNER: &str = "whoever runs the join";
const HOST: &str = "the host program";

const fn no(number: i64, to: &'static str, meaning: &'static str, advice: &'static str) -> Refusal {
    Refusal { number, to, meaning, advice }
}

pub const REFUSALS: [Refusal; 30] = [
    no(
        11,
        DRAWER,
        "A measure is from -100 m to 100 m, and this value is not.",
        "check the value; a sheet gives it in tenths of a millimetre.",
    ),
    no(12, DRAWER, "The plan has 32 measures already, the most it can have.", "leave a measure out, or draw a second plan."),
    no(13, DRAWER, "The plan has 64 rules already, the most it can have.", "leave a rule out."),
    no(
        14,
        DRAWER,
        "A rule compares two different measures of the plan, and here one is missing or both are the same.",
        "give the measures first, then the rule that names them.",
    ),
    no(
        15,
        DRAWER,
        "The allowance of a rule is from -200 m to 200 m, and its last number is 0 for soft or 1 for firm.",
        "correct the number that is out of range.",
    ),
    no(16, DRAWER, "A plan needs a measure before it can be opened.", "give at least one measure."),
    no(
        17,
        DRAWER,
        "A rule does not hold for the values drawn, so the plan cannot be opened.",
        "correct the value or the rule and draw the plan again from the start.",
    ),
    no(21, NAMER, "There is no side with this number.", "name a side that there is."),
    no(22, EDITOR, "A client has a number from 1 to 999.", "enter the edit under such a number."),
    no(23, EDITOR, "The plan has no measure with this number.", "look the measure's number up."),
    no(
        24,
        EDITOR,
        "The kind of change is 1 (set), 2 (add), 3 (multiply) or 4 (divide); set and add take -100 m to 100 m, \
         multiply and divide take 1 to 10 or -10 to -1.",
        "correct the kind or its number.",
    ),
    no(
        25,
        EDITOR,
        "The earlier edit it builds on must be a kept edit of the same client that has been replied to.",
        "name such an edit, or 0 for none; an edit made during the join can be named once its side has sent it.",
    ),
    no(
        26,
        EDITOR,
        "The measure is frozen: a firm rule names it, and the copies are apart.",
        "make the edit once the join is installed and the plan is whole.",
    ),
    no(27, EDITOR, "256 edits are kept already, the most there can be.", "join the plan first; then there is room again."),
    no(28, EDITOR, "The measure would leave its range, -100 m to 100 m.", "choose a smaller change."),
    no(29, EDITOR, "A rule would be broken on this copy.", "choose another value, or change the other measure of the rule first."),
    no(30, EDITOR, "Edit number 999,999 has been given, and there is none after it.", "draw a new plan with the values of this one."),
    no(31, RUNNER, "This call does not belong here.", "make the calls that lead there first."),
    no(32, RUNNER, "There are eight sides already, the most there can be.", "join the plan before you split it again."),
    no(33, RUNNER, "This side has sent, and has no new edit since.", "nothing to do here; go on with the next step."),
    no(34, RUNNER, "Not every side has sent since the join began.", "let each side send once, even one that has no edits."),
    no(35, RUNNER, "No edit with this number is waiting to be tried.", "ask `fate` what became of it."),
    no(36, RUNNER, "The edit it builds on has not been tried yet.", "replay that one first."),
    no(37, RUNNER, "Edits that were sent have not all been tried.", "replay those that wait."),
    no(38, RUNNER, "This side has edits that it has not sent.", "let it send them, then confirm."),
    no(39, RUNNER, "This side has confirmed already.", "nothing to do here; go on with the next step."),
    no(40, RUNNER, "Not every side has confirmed.", "let each side confirm before the install."),
    no(41, HOST, "The area lent for the values is too short.", "lend room for 32 numbers; that is always enough."),
    no(51, HOST, "The line cannot be read, so nothing was done.", "write the line as the README lists it."),
    no(
        52,
        HOST,
        "The sheet is longer than 65,536 bytes, so no line of it was run.",
        "shorten the sheet; every run begins with a blank plan.",
    ),
];

pub fn refusal(number: i64) -> Option<&'static Refusal> {
    REFUSALS.iter().find(|refusal| refusal.number == number)
}
