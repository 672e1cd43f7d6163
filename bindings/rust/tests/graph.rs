// The binding from outside: what a graph is, every refusal with the graph as it was, lists of guards, clones, retains, marks and
// pictures.
use scalars::ScalarType::{Bits, Bool, Integer};
use scalars::{Binary, Graph, Operation, Range, Refusal, Scalar, Unary, mask};
use std::fmt::{Debug, Display};

fn has_traits<T: Send + Clone + Debug + Default + Display>() {}

#[test]
fn a_graph_is_send_clone_debug_default_display() {
    has_traits::<Graph>();
}

// A graph with an input of 8 bits, one of an Integer, and whether the first is below 5.
fn small() -> Graph {
    let mut graph = Graph::default();
    let x = graph.input(0, Bits(8), None);
    graph.input(1, Integer, None);
    let limit = graph.constant(Bits(8), 5);
    graph.binary(Bool, Binary::LessUnsigned, x, limit);
    graph
}

// Makes a call that is refused, and looks whether the graph is as it was.
fn refused<T: Debug>(
    graph: &mut Graph,
    call: impl FnOnce(&mut Graph) -> Result<T, Refusal>,
) -> Refusal {
    let before = format!("{graph:?}");
    let refusal = call(graph).expect_err("it is refused");
    assert_eq!(format!("{graph:?}"), before);
    assert!(
        refusal
            .to_string()
            .starts_with(&format!("refused {}: ", refusal.number()))
    );
    refusal
}

#[test]
fn widths_ids_types_declarations_and_lists_are_refused() {
    let graph = &mut small();
    assert_eq!(
        refused(graph, |g| g.try_constant(Bits(129), 0)),
        Refusal::Width
    );
    assert_eq!(
        refused(graph, |g| g.try_unary(Bits(8), Unary::Truncate(200), 0)),
        Refusal::Width
    );
    assert_eq!(refused(graph, |g| g.try_slice(4, 0, 8)), Refusal::Id);
    assert_eq!(refused(graph, |g| g.try_assume_guard(9, true)), Refusal::Id);
    assert_eq!(refused(graph, |g| g.try_resolve(4)), Refusal::Id);
    assert_eq!(refused(graph, |g| g.try_literal(usize::MAX)), Refusal::Id);
    assert_eq!(
        refused(graph, |g| g.try_binary(Bits(8), Binary::Add, 0, 1)),
        Refusal::Typing
    );
    assert_eq!(
        refused(graph, |g| g.try_assume_guard(0, true)),
        Refusal::Typing
    );
    assert_eq!(
        refused(graph, |g| g.try_constant(Bool, 2)),
        Refusal::Declaration
    );
    let empty = Range { min: 3, max: 2 };
    assert_eq!(
        refused(graph, |g| g.try_input(7, Bits(8), Some(empty))),
        Refusal::Declaration
    );
    assert_eq!(refused(graph, |g| g.try_retain(&[true; 3])), Refusal::Keep);
    assert_eq!(
        refused(graph, |g| g.try_retain(&[false, true, true, true])),
        Refusal::Keep
    );
}

#[test]
fn the_513th_node_is_refused() {
    let mut graph = Graph::default();
    for number in 0..512 {
        assert_eq!(graph.effect(number, Integer), number);
    }
    assert_eq!(
        refused(&mut graph, |g| g.try_effect(512, Integer)),
        Refusal::Room
    );
    assert_eq!(graph.effect(3, Integer), 3);
}

#[test]
fn too_many_units_are_refused() {
    let mut graph = Graph::default();
    let mut sum = graph.input(0, Bits(64), None);
    for _ in 0..8 {
        sum = graph.binary(Bits(64), Binary::Add, sum, sum).unwrap();
    }
    assert_eq!(
        refused(&mut graph, |g| g.try_slice(sum, 0, 32)),
        Refusal::Units
    );
}

// A graph with so many inputs of 8 bits, and whether each is below 5.
fn conditions(inputs: usize) -> (Graph, Vec<usize>) {
    let mut graph = Graph::default();
    let limit = graph.constant(Bits(8), 5);
    let ids = (0..inputs).map(|number| {
        let x = graph.input(number, Bits(8), None);
        graph.binary(Bool, Binary::LessUnsigned, x, limit).unwrap()
    });
    let ids = ids.collect();
    (graph, ids)
}

#[test]
fn a_list_of_guards_is_its_guards_one_by_one() {
    for length in 0..=32 {
        let (mut graph, ids) = conditions(20);
        let places = (0..length).map(|place| (ids[place * 7 % 20], place % 3 != 0));
        let guards: Vec<(usize, bool)> = places.collect();
        let mut single = graph.clone();
        for (condition, expect) in &guards {
            single.assume_guard(*condition, *expect);
        }
        graph.assume_guards(&guards);
        assert_eq!(format!("{graph:?}"), format!("{single:?}"));
    }
}

#[test]
fn an_empty_list_of_guards_changes_nothing() {
    let mut graph = small();
    let before = format!("{graph:?}");
    graph.assume_guards(&[]);
    Graph::default().assume_guards(&[]);
    assert_eq!(format!("{graph:?}"), before);
}

#[test]
fn a_list_of_guards_is_wholly_left_where_one_is_refused() {
    let (graph, ids) = &mut conditions(3);
    let valid: Vec<(usize, bool)> = ids.iter().map(|id| (*id, true)).collect();
    for (wrong, refusal) in [
        (1, Refusal::Typing),
        (99, Refusal::Id),
        ((1 << 32) + ids[0], Refusal::Id),
        (usize::MAX, Refusal::Id),
    ] {
        for place in 0..=valid.len() {
            let mut guards = valid.clone();
            guards.insert(place, (wrong, true));
            assert_eq!(refused(graph, |g| g.try_assume_guards(&guards)), refusal);
        }
    }
    // The first guard adds node 7, which is there by the turn of the second, and no Bool.
    let count = graph.scalars.len();
    let found = [valid[0], (count, true)];
    let idle = [(count, true), valid[0]];
    assert_eq!(
        refused(graph, |g| g.try_assume_guards(&found)),
        Refusal::Typing
    );
    assert_eq!(refused(graph, |g| g.try_assume_guards(&idle)), Refusal::Id);
}

#[test]
fn a_list_of_33_guards_is_refused() {
    let (mut graph, ids) = conditions(33);
    let guards: Vec<(usize, bool)> = ids.iter().map(|id| (*id, true)).collect();
    for length in [33, 34, 257, 1000, 65537] {
        // Before its guards are looked at: a node is no condition, another id is none.
        for id in [ids[0], 0, usize::MAX] {
            let long = vec![(id, true); length];
            assert_eq!(
                refused(&mut graph, |g| g.try_assume_guards(&long)),
                Refusal::Guards
            );
        }
    }
    assert_eq!(
        refused(&mut graph, |g| g.try_assume_guards(&guards)),
        Refusal::Guards
    );
    graph.assume_guards(&guards[..32]);
    assert_eq!(graph.scalars.len(), 1 + 2 * 33 + 32);
}

#[test]
fn a_list_of_guards_that_has_no_room_is_refused() {
    let (mut graph, ids) = conditions(2);
    for number in graph.scalars.len()..511 {
        graph.effect(number, Integer);
    }
    let guards = [(ids[0], true), (ids[1], true)];
    assert_eq!(
        refused(&mut graph, |g| g.try_assume_guards(&guards)),
        Refusal::Room
    );
    graph.assume_guards(&guards[..1]);
    assert_eq!((graph.scalars.len(), graph.alias(1)), (512, Some(511)));
}

#[test]
#[should_panic(expected = "refused 11: a list holds 32 guards at most")]
fn a_list_of_guards_that_is_too_long_panics() {
    small().assume_guards(&[(3, true); 33]);
}

#[test]
#[should_panic(expected = "refused 3: an id is not below the number of nodes")]
fn the_originals_shape_panics_with_the_words() {
    small().slice(4, 0, 8);
}

#[test]
fn clones_are_apart() {
    let mut graph = small();
    let mut clone = graph.clone();
    graph.assume_guard(3, true);
    assert_eq!(clone.resolve(0), 0);
    assert_ne!(graph.resolve(0), 0);
    assert_eq!(clone.effect(9, Bool), 4);
    assert_eq!(clone.scalars.len(), 5);
}

#[test]
fn a_retain_renumbers_and_forgets_guards() {
    let mut graph = small();
    graph.assume_guard(3, true);
    let narrowed = graph.resolve(0);
    assert_eq!(graph.alias(0), Some(narrowed));
    let keep: Vec<bool> = (0..graph.scalars.len()).map(|id| id != 1).collect();
    assert_eq!(graph.retain(&keep), [0, usize::MAX, 1, 2, 3]);
    let expected = Scalar {
        ty: Bits(8),
        range: Some(Range { min: 0, max: 4 }),
        operation: Operation::Refine(0),
    };
    assert_eq!(graph.scalars[3], expected);
    assert_eq!(graph.resolve(0), 0);
}

#[test]
fn a_return_gives_back_nodes_and_aliases() {
    let mut graph = small();
    graph.assume_guard(3, true);
    let before = format!("{graph}");
    assert_eq!(graph.mark(), 0);
    let limit = graph.constant(Bits(8), 2);
    let below = graph.binary(Bool, Binary::LessUnsigned, 0, limit).unwrap();
    graph.assume_guard(below, true);
    assert_eq!(graph.scalars.len(), 8);
    for _ in 0..2 {
        graph.return_to(0);
        assert_eq!(format!("{graph}"), before);
        assert_eq!(graph.scalars.len(), 5);
        assert_eq!(graph.constant(Bits(8), 2), 5);
    }
}

// After a retain of all nodes a guard finds its Refine again: the alias leads to a node from before the mark.
#[test]
fn a_return_takes_back_an_alias_to_an_old_node() {
    let mut graph = small();
    graph.assume_guard(3, true);
    graph.retain(&[true; 5]);
    let mark = graph.mark();
    graph.assume_guard(3, true);
    assert_eq!((graph.alias(0), graph.scalars.len()), (Some(4), 5));
    graph.return_to(mark);
    assert_eq!((graph.alias(0), graph.scalars.len()), (None, 5));
}

#[test]
fn marks_are_a_stack_of_sixteen() {
    let mut graph = small();
    for mark in 0..16 {
        assert_eq!(graph.mark(), mark);
        graph.effect(mark, Bool);
    }
    assert_eq!(refused(&mut graph, |g| g.try_mark()), Refusal::Marks);
    assert_eq!(refused(&mut graph, |g| g.try_return_to(16)), Refusal::Mark);
    graph.return_to(14);
    assert_eq!((graph.marks(), graph.scalars.len()), (15, 4 + 14));
    assert_eq!(refused(&mut graph, |g| g.try_return_to(15)), Refusal::Mark);
    assert_eq!(graph.mark(), 15);
    graph.return_to(0);
    assert_eq!((graph.marks(), graph.scalars.len()), (1, 4));
    assert_eq!(graph.mark(), 1);
}

#[test]
fn a_retain_drops_marks_unless_it_is_refused() {
    let mut graph = small();
    graph.mark();
    assert_eq!(
        refused(&mut graph, |g| g.try_retain(&[true; 5])),
        Refusal::Keep
    );
    assert_eq!(graph.marks(), 1);
    graph.return_to(0);
    graph.retain(&[true; 4]);
    assert_eq!(graph.marks(), 0);
    assert_eq!(refused(&mut graph, |g| g.try_return_to(0)), Refusal::Mark);
    assert_eq!(graph.mark(), 0);
}

#[test]
fn a_retain_of_no_node_drops_marks_too() {
    let mut graph = Graph::default();
    assert_eq!(graph.mark(), 0);
    assert_eq!(graph.retain(&[]), []);
    assert_eq!(refused(&mut graph, |g| g.try_return_to(0)), Refusal::Mark);
}

#[test]
fn a_clone_has_marks_of_its_own() {
    let mut graph = small();
    graph.mark();
    graph.effect(0, Bool);
    graph.mark();
    let mut clone = graph.clone();
    graph.return_to(0);
    graph.assume_guard(3, true);
    assert_eq!((clone.marks(), clone.scalars.len()), (2, 5));
    clone.effect(1, Bool);
    clone.return_to(1);
    assert_eq!(clone.scalars.len(), 5);
    clone.return_to(0);
    assert_eq!((clone.scalars.len(), clone.resolve(0)), (4, 0));
    assert_eq!((graph.marks(), graph.alias(0)), (1, Some(4)));
}

#[test]
#[should_panic(expected = "refused 10: the mark does not stand")]
fn a_return_to_no_mark_panics() {
    small().return_to(0);
}

#[test]
fn a_picture_tells_narrowed_and_dropped_nodes_apart() {
    let mut graph = small();
    graph.assume_guard(3, true);
    let keep = [true, false, true, true, true];
    let picture = graph.picture().dropping(&keep).to_string();
    let line = |id: usize| {
        picture
            .lines()
            .find(|line| line.contains(&format!("n{id} [label=")))
            .unwrap()
    };
    assert!(line(0).contains("lightyellow"));
    assert!(line(1).contains("dotted"));
    assert!(line(2).contains("style=solid"));
    assert!(picture.contains("n0 -> n4 [style=dashed"));
}

#[test]
fn masks() {
    assert_eq!(
        [mask(0), mask(1), mask(64), mask(128)],
        [0, 1, u64::MAX.into(), u128::MAX]
    );
}
