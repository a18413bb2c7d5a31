//! From an image to a run of the original, and from its result to an answer.

pub mod faults;
pub mod tree;
pub mod values;

use crate::engine::{DataLimits, Engine, RunLimits, VarDefInfo};
use crate::eval::{Caches, EvalContext, GlobalRuntimeState};
use crate::module::resolvers::StaticModuleResolver;
use crate::types::smart_string::{text_of, SmartString};
use crate::{Dynamic, Module, RhaiResult, RhaiResultOf, Scope};
use rules::host::{Allowed, Question};
use rules::image::{Image, Kind};
use rules::outcome::{Ending, Import, RunAnswer};
use rules::place::Place;
use rules::resolver::Resolver;
use rules::session::{Request, Runner};
use std::any::TypeId;
use std::cell::Cell;
use std::collections::BTreeMap;
use std::panic::{catch_unwind, AssertUnwindSafe};
use std::rc::Rc;

thread_local! {
    static RUNNING: Cell<bool> = Cell::new(false);
}

/// Whether the original is running just now. A panic is part of its answer then.
pub fn is_running() -> bool {
    RUNNING.with(Cell::get)
}

/// The original as a runner.
pub struct Original;

impl Runner for Original {
    fn run(&mut self, request: Request) -> RunAnswer {
        let engine = engine_for(&request);
        let mut global = engine.new_global_runtime_state();
        if request.resolver.second.is_some() {
            let first = StaticModuleResolver(request.resolver.first.clone());
            global.embedded_module_resolver = Some(first.into());
        }
        let mut scope = Scope::new();
        for row in &request.names {
            values::push_row(&engine, &mut scope, row);
        }
        let statements = tree::statements(&engine, request.image, 0);
        let run = AssertUnwindSafe(|| {
            let mut caches = Caches::default();
            engine.eval_global_statements(
                &mut global,
                &mut caches,
                &mut scope,
                &statements,
                request.exit_is_value,
            )
        });
        RUNNING.with(|running| running.set(true));
        let result = catch_unwind(run);
        RUNNING.with(|running| running.set(false));
        let ending = match result {
            Ok(result) => ending_of(&engine, request.image, result),
            Err(_) => Ending::Panic,
        };
        let names = values::rows_of(&**engine.host.borrow(), &scope);
        RunAnswer {
            ending,
            count: global.num_operations(),
            names,
            imports: imports_of(&global),
        }
    }
}

fn ending_of(engine: &Engine, image: &Image, result: RhaiResult) -> Ending {
    let host = engine.host.borrow();
    match result {
        Ok(value) => Ending::Value(values::value_of(&**host, &value)),
        Err(error) => faults::ending_of(&**host, &error, |name| refused_place(image, name)),
    }
}

/// The place of a name that the filter refused. The original tells the text alone, so all Var
/// statements with that text must have it at the same place.
fn refused_place(image: &Image, name: &str) -> Place {
    let text = |place: Place| {
        let start = place.offset as usize;
        text_of(&image.text[start..start + place.length as usize])
    };
    let mut places = image
        .statements
        .iter()
        .filter(|row| row.kind == Kind::Var as u8)
        .filter_map(|row| row.name())
        .filter(|place| text(*place) == name);
    let place = places.next().expect("a Var statement has been refused");
    assert!(
        places.all(|other| other == place),
        "two Var statements have the same name at different places"
    );
    place
}

fn imports_of(global: &GlobalRuntimeState) -> Vec<Import> {
    global
        .scan_imports_raw()
        .map(|(name, module)| {
            let name: &SmartString = name.as_ref();
            Import {
                place: name.place().unwrap_or(Place::NONE),
                module: module.number,
            }
        })
        .collect()
}

fn engine_for(request: &Request) -> Engine {
    let limits = request.limits;
    let host = request.host.clone();
    let resolver = match request.resolver {
        Resolver {
            first,
            second: None,
        } => first,
        Resolver {
            second: Some(second),
            ..
        } => second,
    };
    Engine {
        host: host.clone(),
        rule_text: request.image.text.clone(),
        site_text: request.site.to_vec(),
        run_limits: RunLimits {
            operations: limits.operations,
            variables: limits.variables as usize,
            modules: limits.modules as usize,
        },
        resolver: StaticModuleResolver(resolver.clone()),
        limits: DataLimits::default(),
        def_var_filter: Some(Box::new(ask_allow)),
        progress: None,
        global_modules: vec![Module::with_iterator(
            TypeId::of::<values::HostItems>(),
            Rc::new(move |items| values::iterate(&host, items)),
        )
        .into()],
        global_sub_modules: BTreeMap::new(),
        tag: Dynamic::UNIT,
    }
}

/// The variable filter is the host's allow. A fault keeps the position it has, or none.
fn ask_allow(_is_runtime: bool, info: VarDefInfo, context: EvalContext) -> RhaiResultOf<bool> {
    let EvalContext {
        engine,
        global,
        scope,
    } = context;
    let question = Question {
        // No host looks at the place itself, and the original does not tell it.
        name: Place::NONE,
        constant: info.is_const,
        level: info.nesting_level,
        present: info.will_shadow,
    };
    let answer = values::lend_scope(engine, global.always_search_scope, scope, |host, world| {
        host.allow(&question, world)
    });
    match answer.given {
        Allowed::Yes => Ok(true),
        Allowed::No => Ok(false),
        Allowed::Fault(fault) => Err(faults::host_fault(&fault)),
    }
}
