//! Stand-ins for what the cut text of the original takes as given. The collectors hand back the
//! flow file's lists; the data types of names and graphs are the original's own.
#![allow(dead_code)] // some parts stand here only so that the cut text compiles

pub mod ast {
    include!(concat!(env!("OUT_DIR"), "/ast.rs"));

    #[derive(Debug, Clone, PartialEq, Eq, Hash)]
    pub struct FnName;
}

pub mod cfg {
    use std::collections::HashMap;

    use super::analysis::{Analysis, Registry};
    use super::ir::{Module, Stmt};

    include!(concat!(env!("OUT_DIR"), "/cfg.rs"));

    impl Cfg {
        pub fn stmt_at<'a>(&self, id: usize, module: &'a Module) -> &'a Stmt {
            let path = &self.nodes[id].stmt;
            &module.lines[path.line_idx].stmts[path.path[0]]
        }
    }

    pub struct CfgBuild;

    impl Analysis for CfgBuild {
        type Output = Cfg;
        fn name(&self) -> &'static str {
            "cfg"
        }
        fn run(&self, module: &Module, _: &mut Registry) -> Cfg {
            module.cfg.clone()
        }
    }
}

pub mod ir {
    use super::ast::VarName;
    use super::cfg::Cfg;

    pub struct Module {
        pub lines: Vec<Line>,
        /// The graph that the file lists.
        pub cfg: Cfg,
        /// Whether a key calls a handler.
        pub on_key: bool,
    }

    impl Module {
        pub fn has_on_key(&self) -> bool {
            self.on_key
        }
        pub fn has_error_continuation(&self) -> bool {
            false
        }
    }

    pub struct Line {
        pub stmts: Vec<Stmt>,
    }

    pub enum Stmt {
        Other,
        Return,
        Clr,
        Run(Option<u16>),
        Dim(Vec<DimSpec>),
        GoSub { target: u16 },
        OnBranch { targets: Vec<u16> },
        Next { vars: Vec<Option<VarName>> },
    }

    pub struct DimSpec {
        pub name: VarName,
        /// One entry where the item has dimensions.
        pub dims: Vec<u16>,
    }
}

pub mod analysis {
    use std::any::Any;
    use std::collections::HashMap;

    use super::ir::Module;

    pub trait Analysis {
        type Output: 'static;
        fn name(&self) -> &'static str;
        fn run(&self, module: &Module, deps: &mut Registry) -> Self::Output;
    }

    /// The outputs of analyses already run, by name.
    #[derive(Default)]
    pub struct Registry {
        outputs: HashMap<&'static str, Box<dyn Any>>,
    }

    impl Registry {
        pub fn get<A: Analysis>(&mut self, module: &Module, analysis: &A) -> &A::Output {
            let name = analysis.name();
            if !self.outputs.contains_key(name) {
                let output = analysis.run(module, self);
                self.outputs.insert(name, Box::new(output));
            }
            self.outputs[name].downcast_ref().unwrap()
        }
    }
}

pub mod visit {
    use super::ir::Stmt;

    pub trait Visitor {
        fn visit_stmt(&mut self, line_no: u16, stmt: &Stmt);
    }
}

/// What the collectors hand back: the file's lists, found by where a statement stands in memory,
/// since a statement alone is all that a collector is given.
pub mod given {
    use std::cell::RefCell;
    use std::collections::{HashMap, HashSet};
    use std::rc::Rc;

    use super::ast::{FnName, VarName};
    use super::ir::{Module, Stmt};
    use super::visit::Visitor;

    #[derive(Default)]
    pub struct Lists {
        pub references: Vec<VarName>,
        pub written: Vec<VarName>,
        pub read: Vec<VarName>,
    }

    thread_local! {
        static GIVEN: RefCell<(usize, Rc<Vec<Lists>>)> = RefCell::default();
    }

    /// From now on, the lists of this module's statements are handed back.
    pub fn hand_back(module: &Module, lists: &Rc<Vec<Lists>>) {
        let first = module.lines[0].stmts.as_ptr() as usize;
        GIVEN.set((first, lists.clone()));
    }

    fn of<T>(stmt: &Stmt, part: impl Fn(&Lists) -> T) -> T {
        GIVEN.with_borrow(|(first, lists)| {
            part(&lists[(stmt as *const Stmt as usize - first) / size_of::<Stmt>()])
        })
    }

    pub fn stmt_defs(stmt: &Stmt) -> Vec<VarName> {
        of(stmt, |lists| lists.written.clone())
    }

    pub fn stmt_uses(stmt: &Stmt, _: &FnBodyReads) -> Vec<VarName> {
        of(stmt, |lists| lists.read.clone())
    }

    pub struct FnBodyReads;

    impl FnBodyReads {
        pub fn build(_: &Module) -> Self {
            FnBodyReads
        }
    }

    /// A bare NEXT has every FOR name in its given read set.
    pub fn for_loop_vars(_: &Module) -> Vec<VarName> {
        Vec::new()
    }

    pub fn fn_body_arrays(_: &Module) -> HashMap<FnName, HashSet<VarName>> {
        HashMap::new()
    }

    pub struct OwnArrayRefs<'a> {
        pub fn_arrays: &'a HashMap<FnName, HashSet<VarName>>,
        pub fns: HashSet<FnName>,
        pub out: HashSet<VarName>,
    }

    impl Visitor for OwnArrayRefs<'_> {
        fn visit_stmt(&mut self, _: u16, stmt: &Stmt) {
            self.out.extend(of(stmt, |lists| lists.references.clone()));
        }
    }
}
