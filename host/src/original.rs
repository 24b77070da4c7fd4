//! The original functions, cut at build time, and their answers to a flow.

use std::collections::{HashMap, HashSet};
use std::rc::Rc;

use crate::analysis::{Analysis, Registry};
use crate::ast::{VarKind, VarName};
use crate::cfg::{Cfg, CfgNode, StmtPath};
use crate::flow::{Flow, Kind, Statement};
use crate::given::{self, Lists};
use crate::interference::Interference;
use crate::ir::{DimSpec, Line, Module, Stmt};

#[allow(dead_code)]
mod dataflow {
    use std::cell::RefCell;
    use std::collections::{HashMap, HashSet, VecDeque};

    use crate::ast::VarName;
    use crate::cfg::{Cfg, CfgNode};
    use crate::given::{FnBodyReads, OwnArrayRefs, fn_body_arrays, for_loop_vars, stmt_defs, stmt_uses};
    use crate::ir::{Module, Stmt};

    include!(concat!(env!("OUT_DIR"), "/dataflow.rs"));

    /// An analysis whose visits are counted by number: the solver calls `transfer` once a visit.
    struct Counted<'a, D> {
        analysis: &'a D,
        visits: RefCell<Vec<u64>>,
    }

    impl<D: DataflowAnalysis> DataflowAnalysis for Counted<'_, D> {
        type Lattice = D::Lattice;
        fn direction(&self) -> Direction {
            self.analysis.direction()
        }
        fn boundary(&self) -> D::Lattice {
            self.analysis.boundary()
        }
        fn transfer(
            &self,
            module: &Module,
            cfg: &Cfg,
            node: &CfgNode,
            id: usize,
            masks: &D::Lattice,
        ) -> D::Lattice {
            self.visits.borrow_mut()[id] += 1;
            self.analysis.transfer(module, cfg, node, id, masks)
        }
        fn transfer_per_successor(
            &self,
            module: &Module,
            cfg: &Cfg,
            node: &CfgNode,
            id: usize,
            masks: &D::Lattice,
        ) -> Option<Vec<D::Lattice>> {
            self.analysis.transfer_per_successor(module, cfg, node, id, masks)
        }
        fn widen(&self, before: &D::Lattice, joined: &D::Lattice) -> D::Lattice {
            self.analysis.widen(before, joined)
        }
        fn freeze(&self, before: &D::Lattice, joined: &D::Lattice) -> D::Lattice {
            self.analysis.freeze(before, joined)
        }
    }

    fn index(arrays: &[VarName]) -> HashMap<VarName, usize> {
        arrays.iter().cloned().zip(0..).collect()
    }

    /// The edges and the visits of each doubled number, in one run of what `array_states` does.
    pub fn doubled(module: &Module, arrays: &[VarName]) -> (Vec<Vec<usize>>, Vec<u64>) {
        let (index, refs) = (index(arrays), array_states(module, &module.cfg, arrays).refs);
        let (graph, calls) = summarize_calls(module, &module.cfg, &index, &refs);
        let analysis = ArrayStateFlow { index: &index, refs: &refs, calls: &calls };
        let counted = Counted { analysis: &analysis, visits: RefCell::new(vec![0; graph.nodes.len()]) };
        solve(module, &graph, &counted);
        (graph.nodes.into_iter().map(|node| node.successors).collect(), counted.visits.into_inner())
    }

    /// What bodies touch and whether they are opaque, entered in this order.
    pub fn bodies(module: &Module, arrays: &[VarName], entries: &[usize]) -> Vec<(Vec<usize>, bool)> {
        let (index, refs) = (index(arrays), array_states(module, &module.cfg, arrays).refs);
        let mut memo = HashMap::new();
        let mut effect = |e: &usize| sub_effect(module, &module.cfg, &index, &refs, *e, &mut memo);
        entries.iter().map(|e| effect(e)).map(|effect| (effect.touched, effect.opaque)).collect()
    }

    /// The visits of each statement in the solve of `DefinedBeforeUse`.
    pub fn defined_visits(module: &Module) -> Vec<u64> {
        let visits = RefCell::new(vec![0; module.cfg.nodes.len()]);
        let counted = Counted { analysis: &DefinedFlow, visits };
        solve(module, &module.cfg, &counted);
        counted.visits.into_inner()
    }

    pub fn live_sets(module: &Module) -> Vec<(HashSet<VarName>, HashSet<VarName>)> {
        let flow = LiveVarsFlow { fns: FnBodyReads::build(module), for_vars: for_loop_vars(module) };
        solve(module, &module.cfg, &flow)
    }
}

use dataflow::{DefinedBeforeUse, InterferenceGraph, VarInterference};

/// A flow in the original's types.
pub struct Original {
    module: Module,
    lists: Rc<Vec<Lists>>,
    arrays: Vec<VarName>,
    names: Vec<VarName>,
}

fn name(number: usize, kind: VarKind) -> VarName {
    let letter = |i: usize| char::from(b'A' + i as u8);
    VarName { base: [letter(number / 26), letter(number % 26)].iter().collect(), kind }
}

fn stmt(kind: &Kind, arrays: &[VarName]) -> Stmt {
    match kind {
        Kind::Other => Stmt::Other,
        Kind::Return => Stmt::Return,
        Kind::Clr => Stmt::Clr,
        Kind::Run => Stmt::Run(None),
        Kind::Dim(items) => {
            let spec = |&(array, flag): &(u8, u8)| DimSpec {
                name: arrays[usize::from(array)].clone(),
                dims: vec![10; flag.into()],
            };
            Stmt::Dim(items.iter().map(spec).collect())
        }
        Kind::Gosub { line, .. } => Stmt::GoSub { target: *line },
        Kind::OnGosub { lines, .. } => Stmt::OnBranch { targets: lines.clone() },
    }
}

fn graph(flow: &Flow) -> Cfg {
    let node = |(id, s): (usize, &Statement)| CfgNode {
        stmt: StmtPath { line_idx: 0, path: vec![id] },
        line_no: s.line,
        successors: s.successors.iter().map(|&t| t.into()).collect(),
        predecessors: Vec::new(),
    };
    let mut nodes: Vec<CfgNode> = flow.statements.iter().enumerate().map(node).collect();
    for (id, s) in flow.statements.iter().enumerate() {
        for &t in &s.successors {
            nodes[usize::from(t)].predecessors.push(id);
        }
    }
    let back = |(id, s): (usize, &Statement)| Some((id, s.continuation()?.into()));
    Cfg {
        nodes,
        entry: flow.entry.into(),
        line_first: flow.lines.iter().map(|&(line, first)| (line, first.into())).collect(),
        return_targets: Vec::new(),
        gosub_continuations: flow.statements.iter().enumerate().filter_map(back).collect(),
    }
}

impl Original {
    /// `None` for a flow with an interrupt key.
    pub fn new(flow: &Flow) -> Option<Original> {
        flow.handler.is_none().then(|| Original::of(flow))
    }

    fn of(flow: &Flow) -> Original {
        let arrays: Vec<VarName> = (0..flow.arrays.into()).map(|i| name(i, VarKind::Float)).collect();
        let names: Vec<VarName> = (0..flow.names.into()).map(|i| name(i, VarKind::Float)).collect();
        let members = |set: u64| {
            let member = |(i, v): (usize, &VarName)| (set >> i & 1 == 1).then(|| v.clone());
            names.iter().enumerate().filter_map(member).collect()
        };
        let lists = |s: &Statement| Lists {
            references: s.references.iter().map(|&a| arrays[usize::from(a)].clone()).collect(),
            written: members(s.written),
            read: members(s.read),
        };
        let stmts = flow.statements.iter().map(|s| stmt(&s.kind, &arrays)).collect();
        Original {
            module: Module { lines: vec![Line { stmts }], cfg: graph(flow), on_key: flow.handler.is_some() },
            lists: Rc::new(flow.statements.iter().map(lists).collect()),
            arrays,
            names,
        }
    }

    /// The masks of each statement.
    pub fn array_states(&self) -> Vec<Vec<u8>> {
        given::hand_back(&self.module, &self.lists);
        dataflow::array_states(&self.module, &self.module.cfg, &self.arrays).per_node
    }

    /// The edges and the visits of each doubled number.
    pub fn doubled(&self) -> (Vec<Vec<usize>>, Vec<u64>) {
        given::hand_back(&self.module, &self.lists);
        dataflow::doubled(&self.module, &self.arrays)
    }

    /// What bodies touch and whether they are opaque, where they are entered in this order.
    pub fn bodies(&self, entries: &[usize]) -> Vec<(Vec<usize>, bool)> {
        given::hand_back(&self.module, &self.lists);
        dataflow::bodies(&self.module, &self.arrays, entries)
    }

    /// Live-in and live-out of each statement, as the original's sets.
    pub fn live_sets(&self) -> Vec<(HashSet<VarName>, HashSet<VarName>)> {
        given::hand_back(&self.module, &self.lists);
        dataflow::live_sets(&self.module)
    }

    /// Live-in and live-out of each statement, as words.
    pub fn live_words(&self) -> (Vec<u64>, Vec<u64>) {
        let bits: HashMap<&VarName, u64> = self.names.iter().zip((0..).map(|i| 1 << i)).collect();
        let word = |set: &HashSet<VarName>| set.iter().fold(0, |w, v| w | bits[v]);
        self.live_sets().iter().map(|(live_in, live_out)| (word(live_in), word(live_out))).unzip()
    }

    /// The names always written before they are read, as a word: none in a module with a key's handler or
    /// with an error handler that goes on, which no flow here has.
    pub fn defined_before_use(&self) -> u64 {
        given::hand_back(&self.module, &self.lists);
        let defined = DefinedBeforeUse.run(&self.module, &mut Registry::default());
        self.names.iter().rev().fold(0, |w, v| w << 1 | u64::from(defined.contains(v)))
    }

    /// The visits of each statement in the solve that these names rest on. Past 32 of them it takes no
    /// name as written there.
    pub fn defined_visits(&self) -> Vec<u64> {
        given::hand_back(&self.module, &self.lists);
        dataflow::defined_visits(&self.module)
    }
}

/// A flow for the original's interference alone, which knows of a key: it asks whether there is one.
pub struct Names(Original);

impl Names {
    pub fn new(flow: &Flow) -> Names {
        Names(Original::of(flow))
    }

    /// The original's own graph, its live sets solved on the way.
    pub fn graph(&self) -> InterferenceGraph {
        given::hand_back(&self.0.module, &self.0.lists);
        VarInterference.run(&self.0.module, &mut Registry::default())
    }

    /// For each name the names it interferes with, and the size of the largest live-in set: the original's live
    /// sets take no notice of a key.
    pub fn interference(&self) -> Interference {
        let (graph, names) = (self.graph(), &self.0.names);
        let row = |v| names.iter().rev().fold(0, |w, u| w << 1 | u64::from(graph.interferes(v, u)));
        let most = self.0.live_sets().iter().map(|(live_in, _)| live_in.len()).max();
        Interference { rows: names.iter().map(row).collect(), most: most.unwrap_or(0) as u64 }
    }
}
