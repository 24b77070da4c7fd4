//! The picture of a flow: its nodes and edges, and that it is well formed for every fit file.

use std::collections::BTreeSet;

use yarnuskel_host::answerer;
use yarnuskel_host::flow::{self, Flow};
use yarnuskel_host::{cases, dot, generate, text};

fn picture(flow: &Flow) -> String {
    dot::print(flow, &answerer::states(flow, None).masks)
}

/// The lines that name a node, and those that are edges, without what they are drawn with.
fn parts(picture: &str) -> (Vec<&str>, Vec<&str>) {
    let lines = picture.lines().filter_map(|line| line.strip_prefix("  ")).map(|line| {
        let end = line.find(" [").unwrap_or(line.len() - 1);
        (&line[..end], line)
    });
    let (edges, nodes): (Vec<_>, Vec<_>) = lines.partition(|(name, _)| name.contains("->"));
    (nodes.into_iter().map(|(name, _)| name).collect(), edges.into_iter().map(|(_, line)| line).collect())
}

#[test]
fn p5() {
    let picture = picture(&cases::worked()[0].flow);
    let (nodes, edges) = parts(&picture);
    assert_eq!(nodes, ["node", "graph", "start", "0", "1", "2", "3"]);
    let (enters, goes_on) = (" [style=dashed, color=blue];", " [style=dotted, color=red];");
    let expected =
        ["start -> 0;", "0 -> 2;", &format!("0 -> 2{enters}"), &format!("0 -> 1{goes_on}"), "2 -> 3;"];
    assert_eq!(edges, expected);
    for label in [
        r#"0 [label="0: line 10\lGOSUB 30 then 1\lsure 0\lmasks 1\l"];"#,
        r#"1 [label="1: line 20\lother\lrefs 0\lmasks 2\l"];"#,
        r#"3 [label="3: line 40\lRETURN\lmasks 2\l"];"#,
    ] {
        assert!(picture.contains(label), "{label} in\n{picture}");
    }
}

/// Each call shows its sure arrays, and no other statement shows any.
#[test]
fn sure_arrays() {
    for (name, _, flow) in cases::sure_flows() {
        let picture = picture(&flow);
        for (i, sure) in answerer::sure_arrays(&flow, None).into_iter().enumerate() {
            let node = picture.lines().find(|line| line.starts_with(&format!("  {i} [label"))).unwrap();
            let shown = node.split_once("\\lsure").map(|(_, rest)| rest.split("\\l").next().unwrap());
            let arrays = text::list(text::members(sure));
            assert_eq!(shown.unwrap_or(""), arrays, "{name}, statement {i}: {node}");
        }
    }
}

/// The key is one arrow to its handler, with what the handler's body touches.
#[test]
fn interrupt_key() {
    let p5 = &cases::worked()[0].flow;
    assert!(!picture(p5).contains("key"));
    for (handler, label) in [(2, "key\\ltouches 0\\l"), (3, "key\\l")] {
        let picture = picture(&Flow { handler: Some(handler), ..p5.clone() });
        assert!(picture.contains(&format!("  key [shape=plaintext, label=\"{label}\"];\n")), "{picture}");
        let (nodes, edges) = parts(&picture);
        assert_eq!(nodes.iter().filter(|name| **name == "key").count(), 1);
        let of_key: Vec<&&str> = edges.iter().filter(|edge| edge.starts_with("key")).collect();
        assert_eq!(of_key, [&format!("key -> {handler} [style=bold, color=darkgreen];")]);
    }
    let opaque = Flow { handler: Some(2), ..cases::worked()[1].flow.clone() };
    assert!(picture(&opaque).contains("label=\"key\\lopaque\\l\""));
}

#[test]
fn certain_names_and_names_at_once() {
    let p5 = &cases::worked()[0].flow;
    assert!(picture(p5).contains("label=\"certain names none\\n1 live at once\""));
    let mut flow = p5.clone();
    (flow.names, flow.statements[0].written) = (2, 0b11);
    let names: Vec<String> =
        text::members(answerer::certain_names(&flow, None)).map(|x| x.to_string()).collect();
    assert!(!names.is_empty() && picture(&flow).contains(&format!("certain names {}\\n", names.join(" "))));
    assert!(!picture(&Flow { names: 0, ..Flow::default() }).contains("label"));
}

#[test]
fn long_lists_are_cut_and_unreached_statements_grey() {
    let lines = (0..200).collect();
    let mut flow = cases::worked()[0].flow.clone();
    flow.statements[1].kind = flow::Kind::OnGosub { lines, continuation: None };
    flow.statements[2].successors.clear();
    let picture = picture(&flow);
    assert!(picture.contains("ON GOSUB 0 1 2 3 4 5 6 7 (200 in all)"), "{picture}");
    assert!(picture.contains("masks 0\\l\", color=grey, fontcolor=grey];"), "{picture}");
}

#[test]
fn random_flows_are_well_formed() {
    let flows = (0..2_000).filter_map(|index| flow::read(&generate::file(4, index)).ok());
    for flow in flows.filter(|flow| flow.statements.len() < 300) {
        let picture = picture(&flow);
        let count = |sign: char| picture.matches(sign).count();
        assert_eq!((count('{'), count('}')), (1, 1));
        assert_eq!(count('['), count(']'));
        assert_eq!(count('"') % 2, 0);
        let (nodes, edges) = parts(&picture);
        let known: BTreeSet<&str> = nodes.into_iter().collect();
        for edge in edges {
            let mut ends = edge.trim_end_matches(';').split(" [").next().unwrap().split(" -> ");
            assert!(ends.all(|end| known.contains(end)), "{edge}");
        }
        let (first, rest) = picture.split_once('\n').unwrap();
        assert_eq!((first, rest.lines().last()), ("digraph flow {", Some("}")));
        assert!(rest.lines().all(|line| line == "}" || line.ends_with(';')));
    }
}
