//! Uses the crate for Rust as it shouldn't be used, as far as its types let one, and its errors and names as Rust's users expect them.
//! It ends with how many checks passed.
use accesskit_proved::{Action, Bounds, Color, Error, Event, Field, Filter, Flag, HasPopup, Id, Move, Place, Position, Refusal, Role};
use accesskit_proved::{rule_name, Style, Toggled, Tree, TreeName, Update};
use std::collections::{BTreeSet, HashSet};
use std::fmt::Debug;
use std::hash::Hash;

#[derive(Default)]
struct Checks {
    passed: usize,
    failed: usize,
}

impl Checks {
    /// Both have to be the same.
    fn same<T: Debug + PartialEq>(&mut self, what: &str, found: T, wanted: T) {
        if found == wanted {
            self.passed += 1;
        } else {
            self.failed += 1;
            println!("{what}: {found:?}, not {wanted:?}");
        }
    }
}

const FIRST: &str = "update root focus=1 root=1
node 1 Window children=2
node 2 GenericContainer tree=00000000-0000-0000-0000-000000000007
end
";

const INNER: [u8; 16] = [0, 0, 0, 0, 0, 0, 0, 0, 0, 0, 0, 0, 0, 0, 0, 7];
const OTHER: [u8; 16] = [0, 0, 0, 0, 0, 0, 0, 0, 0, 0, 0, 0, 0, 0, 0, 8];

/// Updates that break a rule: what is fed before, the lines, the refusal, and what it says of the update.
const REFUSALS: [(&str, &str, Refusal, &str); 13] = [
    ("", "update root focus=1\nnode 1 Window\nend\n", Refusal::MissingTreeInfo, "says no root"),
    ("", "update 00000000-0000-0000-0000-000000000007 focus=1 root=1\nnode 1 Window\nend\n", Refusal::NotRootTree, "another tree"),
    ("", "update root focus=1 root=1\nnode 1 Window children=2\nend\n", Refusal::MissingData(2), "node 2"),
    (FIRST, "update root focus=1\nnode 9 Button\nend\n", Refusal::NotReached(9), "node 9"),
    (FIRST, "update root focus=1\nnode 1 Window children=2\nnode 1 Window children=2\nend\n", Refusal::NamedTwice(1), "node 1 twice"),
    (FIRST, "update root focus=1\nnode 1 Window children=2,3\nnode 3 Button children=2\nend\n", Refusal::ListedTwice(2), "listed twice"),
    (FIRST, "update root focus=1\nnode 2 GenericContainer tree=root\nend\n", Refusal::RootTreeGrafted(2), "root tree at node 2"),
    (
        FIRST,
        "update root focus=1\nnode 2 Image tree=00000000-0000-0000-0000-000000000007 children=3\nnode 3 Button\nend\n",
        Refusal::GraftWithChildren(2),
        "node 2, that lists children",
    ),
    (
        FIRST,
        "update root focus=1\nnode 1 Window children=2,3\nnode 3 Image tree=00000000-0000-0000-0000-000000000007\nend\n",
        Refusal::GraftedTwice(INNER),
        "two grafts of the tree 00000000-0000-0000-0000-000000000007",
    ),
    (FIRST, "update 00000000-0000-0000-0000-000000000008 focus=1 root=1\nnode 1 Window\nend\n", Refusal::NoGraft(OTHER), "the tree 00000000-0000-0000-0000-000000000008, which no node grafts"),
    (FIRST, "update 00000000-0000-0000-0000-000000000007 focus=1\nnode 1 Window\nend\n", Refusal::NoFirstTreeInfo(INNER), "0007, and says no root"),
    (FIRST, "update root focus=9\nend\n", Refusal::FocusMissing(9), "focus on node 9"),
    (FIRST, "update root focus=2\nend\n", Refusal::FocusOnEmptyGraft(INNER), "isn't present"),
];

fn refusals(checks: &mut Checks) -> Result<(), Error> {
    for (before, lines, why, words) in REFUSALS {
        let mut tree = Tree::new()?;
        tree.feed(before)?;
        checks.same(words, tree.feed(lines), Err(Error::Refused { done: 0, why }));
        checks.same(words, why.to_string().contains(words), true);
        checks.same(words, tree.root()?.is_some(), !before.is_empty());
        let named = (1..=14).filter_map(rule_name).find(|name| format!("{why:?}").split('(').next() == Some(name));
        checks.same("the library's name of a rule", named.is_some(), true);
    }
    checks.same("names of rules", (rule_name(0), rule_name(15), (1..=14).filter_map(rule_name).count()), (None, None, 14));
    checks.same("a node of a refusal", (Refusal::NotReached(9).node(), Refusal::NoGraft(INNER).node()), (Some(9), None));
    checks.same("a tree of a refusal", (Refusal::NotReached(9).tree(), Refusal::NoGraft(INNER).tree()), (None, Some(INNER)));
    Ok(())
}

fn parts_of_updates(checks: &mut Checks) -> Result<(), Error> {
    let mut tree = Tree::new()?;
    tree.feed(FIRST)?;
    let mut with = |build: fn(&mut Update) -> Result<(), Error>| tree.update(TreeName::Root, 1, build);
    checks.same("a field of another kind", with(|it| it.node(2, Role::BUTTON)?.flag(Field::Label).map(|_| ())), Err(Error::NoSuch));
    checks.same("a size of 33 bits", with(|it| it.node(2, Role::BUTTON)?.count(Field::FontSize, 1 << 32).map(|_| ())), Err(Error::NoSuch));
    checks.same("a field before a node", with(|it| it.text(Field::Label, "x").map(|_| ())), Err(Error::OutOfPlace));
    checks.same("a toolkit before a root", with(|it| it.toolkit_name("x").map(|_| ())), Err(Error::OutOfPlace));
    checks.same("an update that its builder gives up", with(|it| it.node(9, Role::BUTTON).and(Err(Error::NoSuch))), Err(Error::NoSuch));
    checks.same("an update afterwards", with(|it| it.node(2, Role::BUTTON)?.text(Field::Label, "a\0b").map(|_| ())), Ok(()));
    let id = Id { tree: 0, node: 2 };
    checks.same("its label", tree.label(id)?, Some("a\0b".into()));
    checks.same("a bad line", tree.feed("host on\nwhat\n"), Err(Error::BadLine(2)));
    let absent = Id { tree: u32::MAX, node: u64::MAX };
    checks.same("a label of no node", tree.label(absent), Err(Error::NoNode));
    checks.same("children of no node", tree.children(absent), Err(Error::NoNode));
    checks.same("a flag of no node", tree.flag(absent, Flag::Hidden), Err(Error::NoNode));
    checks.same("a field of no node", tree.field_text(absent, Field::Label), Err(Error::NoNode));
    checks.same("a field that isn't set", tree.field_text(id, Field::Url), Ok(None));
    checks.same("a field of another kind that is read", tree.field_number(id, Field::Label), Err(Error::NoSuch));
    checks.same("an index that isn't there", tree.text_position(id, usize::MAX, true), Ok(None));
    Ok(())
}

/// What users of the language expect of an error, of plain data, and of a tree.
fn is_error<T: std::error::Error + Send + Sync + 'static>() {}
fn is_plain<T: Copy + Debug + Eq + Hash>() {}
fn is_shown<T: Debug>() {}

fn traits(checks: &mut Checks) -> Result<(), Box<dyn std::error::Error>> {
    is_error::<Error>();
    is_error::<accesskit_proved::UnknownRole>();
    (is_plain::<Error>(), is_plain::<Refusal>(), is_plain::<Event>(), is_plain::<Id>(), is_plain::<Bounds>(), is_plain::<Position>());
    (is_plain::<Role>(), is_plain::<Action>(), is_plain::<Field>(), is_plain::<Flag>(), is_plain::<Filter>(), is_plain::<Move>());
    (is_plain::<Style>(), is_plain::<Toggled>(), is_plain::<HasPopup>(), is_plain::<Color>(), is_plain::<Place>(), is_plain::<TreeName>());
    (is_shown::<Tree>(), is_shown::<Update>());
    let ids: HashSet<_> = Tree::new()?.root()?.into_iter().chain([Id { tree: 0, node: 1 }; 2]).collect();
    checks.same("ids in a set", ids.len(), 1);
    let ordered: BTreeSet<_> = [Id { tree: 0, node: 2 }, Id { tree: 1, node: 1 }, Id { tree: 0, node: 1 }].into();
    checks.same("ids in order", ordered.iter().map(|id| (id.node, id.tree)).collect::<Vec<_>>(), vec![(1, 0), (1, 1), (2, 0)]);
    let error: Box<dyn std::error::Error> = Error::BadLine(3).into();
    checks.same("an error as any other", error.to_string(), "line 3 is bad".into());
    let refused = Error::Refused { done: 1, why: Refusal::NamedTwice(4) };
    checks.same("a refusal in words", refused.to_string(), "after 1 commands an update was refused: it sends node 4 twice".into());
    Ok(())
}

fn roles(checks: &mut Checks) -> Result<(), Box<dyn std::error::Error>> {
    for (role, name) in [(Role::UNKNOWN, "Unknown"), (Role::BUTTON, "Button"), (Role::TREE, "Tree"), (Role::other(328), "Other(328)")] {
        checks.same(name, (role.to_string(), name.parse()?), (name.into(), role));
    }
    checks.same("names", (Role::CHECK_BOX.name(), Role::other(328).name()), (Some("CheckBox"), None));
    checks.same("a number", Role::CHECK_BOX.as_other(), None);
    checks.same("numbers", (Role::other(0).as_other(), Role::other(u16::MAX).as_other()), (Some(0), Some(u16::MAX)));
    for word in ["button", "", "Other(65536)", "Other(-1)", "Other(328", "Heading"] {
        checks.same(word, word.parse::<Role>().map_err(|error| error.to_string().contains(&format!("{word:?}"))), Err(true));
    }
    let mut tree = Tree::new()?;
    tree.feed("update root focus=1 root=1\nnode 1 Window children=2\nnode 2 Other(328)\nend\n")?;
    for (node, role) in [(1, Role::WINDOW), (2, Role::other(328))] {
        let id = Id { tree: 0, node };
        checks.same("a role that is read", (tree.role(id)?, tree.role_word(id)?), (role, role.to_string()));
    }
    Ok(())
}

fn main() -> Result<(), Box<dyn std::error::Error>> {
    let mut checks = Checks::default();
    refusals(&mut checks)?;
    parts_of_updates(&mut checks)?;
    traits(&mut checks)?;
    roles(&mut checks)?;
    println!("{} passed, {} failed", checks.passed, checks.failed);
    std::process::exit(i32::from(checks.failed > 0))
}
