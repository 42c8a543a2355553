//! The original pass on a sheet: the sheet's parts become HIR, the pass runs, and
//! what it changed becomes the nine sections that it has; or the graph that it
//! builds is handed over, or becomes a drawing.

use original::react_compiler_hir::environment::Environment;
use original::react_compiler_hir::object_shape::BUILT_IN_JSX_ID;
use original::react_compiler_hir::type_config::{ValueKind, ValueReason};
use original::react_compiler_hir::visitors::{
    each_instruction_value_lvalue, for_each_instruction_value_operand_mut,
    for_each_terminal_operand_mut,
};
use original::react_compiler_hir::{
    AliasingDiagnostic, AliasingEffect, BasicBlock, BlockId, BlockKind, DeclarationId, Effect,
    EvaluationOrder, FunctionId, HIR, HirFunction, Identifier, IdentifierId, Instruction,
    InstructionId, InstructionValue, MutableRange, MutableRangeId, MutationReason, ParamPattern,
    Phi, Place, ReactFunctionType, ReturnVariant, SpreadPattern, Terminal, Type, TypeId,
};
use original::react_compiler_inference::graph::{BuiltGraph, built_graph};
use original::react_compiler_inference::infer_mutation_aliasing_ranges::infer_mutation_aliasing_ranges;
use original::react_compiler_utils::OrderedMap;
use original::react_compiler_utils::ordered_map::{ArenaOrderedMap, ArenaOrderedSet};
use oxc_allocator::{Allocator, Vec as ArenaVec};
use oxc_span::Span;
use oxc_str::Ident;

use crate::forms;
use crate::plain::building::Held;
use crate::plain::{self, sheet};

const EFFECTS: [Effect; 8] = [
    Effect::Unknown,
    Effect::Freeze,
    Effect::Read,
    Effect::Capture,
    Effect::ConditionallyMutateIterator,
    Effect::ConditionallyMutate,
    Effect::Mutate,
    Effect::Store,
];

const VALUE_KINDS: [ValueKind; 6] = [
    ValueKind::Mutable,
    ValueKind::Frozen,
    ValueKind::Primitive,
    ValueKind::MaybeFrozen,
    ValueKind::Global,
    ValueKind::Context,
];

const VALUE_REASONS: [ValueReason; 12] = [
    ValueReason::KnownReturnSignature,
    ValueReason::State,
    ValueReason::ReducerState,
    ValueReason::Context,
    ValueReason::Effect,
    ValueReason::HookCaptured,
    ValueReason::HookReturn,
    ValueReason::Global,
    ValueReason::JsxCaptured,
    ValueReason::StoreLocal,
    ValueReason::ReactiveFunctionArgument,
    ValueReason::Other,
];

// =============================================================================
// From the sheet
// =============================================================================

fn identifier_id(number: u32) -> IdentifierId {
    IdentifierId::from_usize(number as usize)
}

fn order(number: u32) -> EvaluationOrder {
    EvaluationOrder::from_usize(number as usize)
}

fn block_id(number: u32) -> BlockId {
    BlockId::from_usize(number as usize)
}

fn place(place: &sheet::Place) -> Place {
    Place {
        identifier: identifier_id(place.identifier),
        effect: EFFECTS[(place.traits % 8) as usize],
        reactive: place.traits >= 8,
        span: (place.span != 0).then_some(Span::new(place.span, place.span)),
    }
}

fn effect<'a>(effect: &sheet::Effect, env: &mut Environment<'a>) -> AliasingEffect<'a> {
    let first = place(&effect.first);
    let second = place(&effect.second);
    let extra = effect.extra as usize;
    let diagnostic = |env: &mut Environment<'a>| {
        env.intern_aliasing_diagnostic(effect.extra, effect.second.identifier)
    };
    match effect.kind {
        0 => AliasingEffect::Freeze { value: first, reason: VALUE_REASONS[extra] },
        1 => AliasingEffect::Mutate {
            value: first,
            reason: (extra == 1).then_some(MutationReason::AssignCurrentProperty),
        },
        2 => AliasingEffect::MutateConditionally { value: first },
        3 => AliasingEffect::MutateTransitive { value: first },
        4 => AliasingEffect::MutateTransitiveConditionally { value: first },
        5 => AliasingEffect::Capture { from: first, into: second },
        6 => AliasingEffect::Alias { from: first, into: second },
        7 => AliasingEffect::MaybeAlias { from: first, into: second },
        8 => AliasingEffect::Assign { from: first, into: second },
        9 => AliasingEffect::Create {
            into: first,
            value: VALUE_KINDS[extra % 6],
            reason: VALUE_REASONS[extra / 6],
        },
        10 => AliasingEffect::CreateFrom { from: first, into: second },
        11 => AliasingEffect::ImmutableCapture { from: first, into: second },
        12 => AliasingEffect::Apply {
            receiver: first,
            function: first,
            mutates_function: false,
            args: ArenaVec::new_in(env.allocator),
            into: first,
            signature: None,
            span: None,
        },
        13 => AliasingEffect::CreateFunction {
            captures: ArenaVec::new_in(env.allocator),
            function_id: FunctionId::from_usize(extra),
            into: first,
        },
        14 => AliasingEffect::MutateFrozen { place: first, error: diagnostic(env) },
        15 => AliasingEffect::MutateGlobal { place: first, error: diagnostic(env) },
        16 => AliasingEffect::Impure { place: first, error: diagnostic(env) },
        17 => AliasingEffect::Render { place: first },
        _ => unreachable!("a sheet's kinds are at most 17"),
    }
}

/// A list of effects; count 0 is built as an empty one.
fn effects<'a>(
    list: &[sheet::Effect],
    env: &mut Environment<'a>,
) -> ArenaVec<'a, AliasingEffect<'a>> {
    let mut effects = ArenaVec::with_capacity_in(list.len(), env.allocator);
    for e in list {
        effects.push(effect(e, env));
    }
    effects
}

fn function<'a>(returns: Place, allocator: &'a Allocator) -> HirFunction<'a> {
    HirFunction {
        span: None,
        id: None,
        name_hint: None,
        fn_type: ReactFunctionType::Other,
        params: ArenaVec::new_in(allocator),
        returns,
        context: ArenaVec::new_in(allocator),
        body: HIR { entry: BlockId::ENTRY, blocks: OrderedMap::default() },
        instructions: ArenaVec::new_in(allocator),
        generator: false,
        is_async: false,
        directives: ArenaVec::new_in(allocator),
        aliasing_effects: None,
    }
}

/// An inner function: its diagnostics become effects that carry them.
fn inner_function<'a>(
    function_: &sheet::InnerFunction,
    env: &mut Environment<'a>,
) -> HirFunction<'a> {
    let nowhere = place(&sheet::Place::default());
    let mut inner = function(nowhere, env.allocator);
    let mut list = ArenaVec::new_in(env.allocator);
    for (i, d) in function_.diagnostics.iter().enumerate() {
        let error = env.intern_aliasing_diagnostic(d.identity, d.instance);
        list.push(match i % 3 {
            0 => AliasingEffect::Impure { place: nowhere, error },
            1 => AliasingEffect::MutateFrozen { place: nowhere, error },
            _ => AliasingEffect::MutateGlobal { place: nowhere, error },
        });
    }
    inner.aliasing_effects = Some(list);
    for context in &function_.context {
        inner.context.push(place(context));
    }
    inner
}

/// The value of an instruction, if a form carries its lists. The target of StoreContext is
/// one place there and stands in both lists; it is built as the operand.
fn value<'a>(
    instruction: &sheet::Instruction,
    choice: usize,
    allocator: &'a Allocator,
) -> Option<InstructionValue<'a>> {
    let sheet::Instruction { lvalues, operands, value, .. } = instruction;
    let places = |list: &[sheet::Place]| -> Vec<Place> { list.iter().map(place).collect() };
    match (value, &lvalues[..], &operands[..]) {
        (sheet::Value::Plain, ..) => {
            forms::plain(&places(lvalues), &places(operands), choice, allocator)
        }
        (sheet::Value::Function(number), [], []) => Some(forms::function(*number, choice)),
        (sheet::Value::StoreContext(stored), [lvalue], [target, value])
            if lvalue.identifier == target.identifier && value.identifier == *stored =>
        {
            Some(forms::store_context(place(target), place(value)))
        }
        _ => None,
    }
}

/// A block, and whether forms carry the lists of all its instructions.
fn block<'a>(
    block: &sheet::Block,
    instructions: &mut ArenaVec<'a, Instruction<'a>>,
    env: &mut Environment<'a>,
) -> (BasicBlock<'a>, bool) {
    let allocator = env.allocator;
    let phis = block.phis.iter().map(|phi| {
        let mut operands = ArenaOrderedMap::new_in(allocator);
        for (predecessor, operand) in &phi.operands {
            operands.insert(block_id(*predecessor), place(operand));
        }
        Phi { place: place(&phi.place), operands }
    });
    let phis = ArenaVec::from_iter_in(phis, allocator);

    let mut ids = ArenaVec::new_in(allocator);
    let mut carried = true;
    for instruction in &block.instructions {
        let choice = instructions.len() * 11 + instruction.order as usize * 5;
        let value = value(instruction, choice, allocator);
        carried &= value.is_some();
        ids.push(InstructionId::from_usize(instructions.len()));
        instructions.push(Instruction {
            id: order(instruction.order),
            lvalue: place(&instruction.lvalue),
            value: value.unwrap_or(InstructionValue::Debugger { span: None }),
            span: None,
            // An absent list is none.
            effects: instruction.effects.as_ref().map(|list| effects(list, env)),
        });
    }

    let terminal = match &block.terminal {
        sheet::Terminal::Other { order: id, operands } => {
            let operands: Vec<Place> = operands.iter().map(place).collect();
            forms::terminal(&operands, order(*id), *id as usize + instructions.len(), allocator)
        }
        sheet::Terminal::Return { order: id, value, effects: list } => Terminal::Return {
            value: place(value),
            return_variant: ReturnVariant::Explicit,
            id: order(*id),
            span: None,
            effects: Some(effects(list, env)),
        },
        sheet::Terminal::MaybeThrow { order: id, effects: list } => Terminal::MaybeThrow {
            continuation: BlockId::ENTRY,
            handler: None,
            id: order(*id),
            span: None,
            effects: Some(effects(list, env)),
        },
    };
    let block = BasicBlock {
        kind: BlockKind::Block,
        id: block_id(block.number),
        instructions: ids,
        terminal,
        preds: ArenaOrderedSet::new_in(allocator),
        phis,
    };
    (block, carried)
}

/// A function and its environment, ready for the pass.
pub struct Prepared<'a> {
    func: HirFunction<'a>,
    env: Environment<'a>,
    is_function_expression: bool,
    /// Whether forms carry the lists of all instructions.
    carried: bool,
}

pub fn prepare<'a>(sheet: &sheet::Sheet, allocator: &'a Allocator) -> Prepared<'a> {
    let mut env = Environment::new(allocator, sheet.validations);
    env.types.push(Type::Poly);
    env.types.push(Type::Primitive);
    env.types.push(Type::Object { shape_id: Some(Ident::new(BUILT_IN_JSX_ID)) });
    for (i, identifier) in sheet.identifiers.iter().enumerate() {
        env.identifiers.push(Identifier {
            id: IdentifierId::from_usize(i),
            declaration_id: DeclarationId::from_usize(i),
            name: None,
            mutable_range: MutableRange {
                id: MutableRangeId::from_usize(i),
                start: order(identifier.start),
                end: order(identifier.end),
            },
            scope: None,
            type_: TypeId::from_usize(identifier.type_ as usize),
            span: None,
        });
    }
    for function in &sheet.functions {
        let inner = inner_function(function, &mut env);
        env.functions.push(inner);
    }

    let mut func = function(place(&sheet.returns), allocator);
    for (i, param) in sheet.params.iter().enumerate() {
        // A spread parameter is its place: every third one is spread.
        func.params.push(if i % 3 == 2 {
            ParamPattern::Spread(SpreadPattern { place: place(param) })
        } else {
            ParamPattern::Place(place(param))
        });
    }
    for context in &sheet.context {
        func.context.push(place(context));
    }
    let mut carried = true;
    for b in &sheet.blocks {
        let (built, of_block) = block(b, &mut func.instructions, &mut env);
        carried &= of_block;
        func.body.blocks.insert(block_id(b.number), built);
    }
    Prepared { func, env, is_function_expression: sheet.function_expression, carried }
}

/// Whether forms carry the lists of all instructions.
pub fn carries(sheet: &sheet::Sheet) -> bool {
    prepare(sheet, &Allocator::new()).carried
}

/// The pass alone, which a benchmark would time. It gives none if it meets an Apply.
pub fn call<'a>(prepared: &mut Prepared<'a>) -> Option<Vec<AliasingEffect<'a>>> {
    infer_mutation_aliasing_ranges(
        &mut prepared.func,
        &mut prepared.env,
        prepared.is_function_expression,
    )
    .ok()
}

// =============================================================================
// To the answer
// =============================================================================

fn position<T: PartialEq>(list: &[T], item: &T) -> u32 {
    list.iter().position(|i| i == item).expect("the list is whole") as u32
}

fn sheet_place(place: &Place) -> sheet::Place {
    sheet::Place {
        identifier: place.identifier.index() as u32,
        traits: position(&EFFECTS, &place.effect) + 8 * place.reactive as u32,
        span: place.span.map_or(0, |s| s.start),
    }
}

fn sheet_effect(effect: &AliasingEffect, env: &Environment) -> sheet::Effect {
    let one = |kind, place: &Place, extra| sheet::Effect {
        kind,
        first: sheet_place(place),
        second: sheet::Place::default(),
        extra,
    };
    let two = |kind, from: &Place, into: &Place| sheet::Effect {
        kind,
        first: sheet_place(from),
        second: sheet_place(into),
        extra: 0,
    };
    let diagnosed = |kind, place: &Place, error: &AliasingDiagnostic| {
        let (identity, instance) = env.diagnostic_numbers(*error);
        let second = sheet::Place { identifier: instance, ..Default::default() };
        sheet::Effect { kind, first: sheet_place(place), second, extra: identity }
    };
    match effect {
        AliasingEffect::Freeze { value, reason } => one(0, value, position(&VALUE_REASONS, reason)),
        AliasingEffect::Mutate { value, reason } => one(1, value, reason.is_some() as u32),
        AliasingEffect::MutateConditionally { value } => one(2, value, 0),
        AliasingEffect::MutateTransitive { value } => one(3, value, 0),
        AliasingEffect::MutateTransitiveConditionally { value } => one(4, value, 0),
        AliasingEffect::Capture { from, into } => two(5, from, into),
        AliasingEffect::Alias { from, into } => two(6, from, into),
        AliasingEffect::MaybeAlias { from, into } => two(7, from, into),
        AliasingEffect::Assign { from, into } => two(8, from, into),
        AliasingEffect::Create { into, value, reason } => {
            one(9, into, 6 * position(&VALUE_REASONS, reason) + position(&VALUE_KINDS, value))
        }
        AliasingEffect::CreateFrom { from, into } => two(10, from, into),
        AliasingEffect::ImmutableCapture { from, into } => two(11, from, into),
        AliasingEffect::Apply { .. } => sheet::Effect { kind: 12, ..Default::default() },
        AliasingEffect::CreateFunction { function_id, into, .. } => {
            one(13, into, function_id.index() as u32)
        }
        AliasingEffect::MutateFrozen { place, error } => diagnosed(14, place, error),
        AliasingEffect::MutateGlobal { place, error } => diagnosed(15, place, error),
        AliasingEffect::Impure { place, error } => diagnosed(16, place, error),
        AliasingEffect::Render { place } => one(17, place, 0),
    }
}

/// The places of an instruction: lvalue, value lvalues, operands.
fn instruction_places(instruction: &mut Instruction) -> Vec<sheet::Place> {
    let mut places = vec![sheet_place(&instruction.lvalue)];
    places.extend(each_instruction_value_lvalue(&instruction.value).iter().map(sheet_place));
    for_each_instruction_value_operand_mut(&mut instruction.value, &mut |place| {
        places.push(sheet_place(place));
    });
    places
}

/// What the original leaves.
#[derive(Debug, Clone)]
pub struct Answered {
    /// Nine sections; `walks` is left empty.
    pub answer: plain::Answer,
    /// Whether forms carry the lists of all instructions. If not, then only params, context,
    /// diagnostics, effects and terminals are the sheet's.
    pub carried: bool,
    /// Positions in the section instructions of the targets of StoreContext among the lvalues.
    pub targets: Vec<usize>,
}

impl Answered {
    /// The plain reader's answer where the original has nothing of its own to say.
    pub fn filled(&self, plain: &plain::Answer) -> plain::Answer {
        let mut answer = self.answer.clone();
        answer.walks = plain.walks.clone();
        if !self.carried {
            answer.ranges = plain.ranges.clone();
            answer.phis = plain.phis.clone();
            answer.instructions = plain.instructions.clone();
            answer.inner = plain.inner.clone();
            return answer;
        }
        for &at in &self.targets {
            if let (Some(own), Some(place)) =
                (answer.instructions.get_mut(at), plain.instructions.get(at))
            {
                *own = *place;
            }
        }
        answer
    }
}

/// The original's sections, or none if it meets an Apply.
pub fn answer(sheet: &sheet::Sheet) -> Option<Answered> {
    let allocator = Allocator::new();
    let mut prepared = prepare(sheet, &allocator);
    let effects = call(&mut prepared)?;
    let Prepared { func, env, carried, .. } = &mut prepared;
    let params = func.params.iter().map(|param| match param {
        ParamPattern::Place(p) => sheet_place(p),
        ParamPattern::Spread(s) => sheet_place(&s.place),
    });
    let ranges = env
        .identifiers
        .iter()
        .map(|i| (i.mutable_range.start.index() as u32, i.mutable_range.end.index() as u32));
    let diagnostics = env.errors.iter().map(|recorded| {
        let (identity, instance) = recorded.numbers;
        sheet::Diagnostic { identity, instance }
    });
    let mut answer = plain::Answer {
        ranges: ranges.collect(),
        params: params.collect(),
        context: func.context.iter().map(sheet_place).collect(),
        diagnostics: diagnostics.collect(),
        effects: effects.iter().map(|e| sheet_effect(e, env)).collect(),
        ..plain::Answer::default()
    };
    for function in env.functions.iter() {
        answer.inner.extend(function.context.iter().map(sheet_place));
    }
    let mut targets = Vec::new();
    for block in func.body.blocks.values_mut() {
        for phi in &block.phis {
            answer.phis.push(sheet_place(&phi.place));
            answer.phis.extend(phi.operands.values().map(sheet_place));
        }
        for id in &block.instructions {
            let instruction = &mut func.instructions[id.index()];
            if let InstructionValue::StoreContext { .. } = instruction.value {
                targets.push(answer.instructions.len() + 1);
            }
            answer.instructions.extend(instruction_places(instruction));
        }
        for_each_terminal_operand_mut(&mut block.terminal, &mut |place| {
            answer.terminals.push(sheet_place(place));
        });
    }
    Some(Answered { answer, carried: *carried, targets })
}

// =============================================================================
// To the graph and the drawing
// =============================================================================

/// The graph that the original has built, and its mutations. An Apply does not matter: the original
/// meets it later.
pub fn graph(sheet: &sheet::Sheet) -> BuiltGraph {
    let allocator = Allocator::new();
    let Prepared { mut func, mut env, is_function_expression, .. } = prepare(sheet, &allocator);
    built_graph(&mut func, &mut env, is_function_expression)
}

/// How many edges and entries that graph has.
pub fn held(sheet: &sheet::Sheet) -> Held {
    let mut held = Held::default();
    for node in graph(sheet).nodes.values() {
        held.edges += node.edges.len();
        let lists = [&node.created_from, &node.aliases, &node.maybe_aliases, &node.captures];
        held.entries += lists.iter().map(|list| list.len()).sum::<usize>();
    }
    held
}

/// The lines of document 02, order 6, for that graph.
pub fn drawing(sheet: &sheet::Sheet) -> Vec<u8> {
    let nodes = graph(sheet).nodes;
    let edges =
        nodes.iter().flat_map(|(from, node)| node.edges.iter().map(move |edge| (from, edge)));
    let word = |kind: &str| match kind {
        "Capture" => "capture",
        "Alias" => "alias",
        "MaybeAlias" => "maybe",
        _ => unreachable!("EdgeKind has no {kind}"),
    };
    let mut lines = vec!["digraph g {".to_string()];
    lines.extend(nodes.keys().map(|id| ["  n", &id.to_string(), ";"].concat()));
    lines.extend(edges.map(|(from, edge)| {
        let [from, into, index] = [*from, edge.into, edge.index].map(|number| number.to_string());
        ["  n", &from, " -> n", &into, " [label=\"", word(&edge.kind), " ", &index, "\"];"].concat()
    }));
    lines.push("}".to_string());
    lines.iter().flat_map(|line| [line.as_bytes(), b"\n"].concat()).collect()
}

#[cfg(test)]
mod tests {
    use std::collections::BTreeSet;

    use super::*;
    use crate::generate;
    use crate::random::Random;

    fn name(form: &impl std::fmt::Debug) -> String {
        format!("{form:?}").split_whitespace().next().unwrap_or_default().to_string()
    }

    /// Made sheets have all 42 forms of `InstructionValue` and all 21 of `Terminal`, and of
    /// most sheets every list is carried.
    #[test]
    fn every_form_comes_up() {
        const SHEETS: usize = 4_000;
        let (mut values, mut terminals, mut carried) = (BTreeSet::new(), BTreeSet::new(), 0);
        let mut random = Random::new(4);
        for _ in 0..SHEETS {
            let allocator = Allocator::new();
            let prepared = prepare(&generate::sheet(&mut random), &allocator);
            values.extend(prepared.func.instructions.iter().map(|i| name(&i.value)));
            terminals.extend(prepared.func.body.blocks.values().map(|b| name(&b.terminal)));
            carried += prepared.carried as usize;
        }
        assert_eq!((values.len(), terminals.len()), (42, 21), "{values:?} {terminals:?}");
        assert!(carried > SHEETS * 4 / 5, "{carried} of {SHEETS}");
        println!("{carried} of {SHEETS} sheets are carried");
    }

    /// In sheets whose lists are carried, a good part of the instructions of each value has no list
    /// of effects, an empty one and a full one.
    #[test]
    fn every_value_without_a_list() {
        let mut counts = [[0; 3]; 3];
        let mut random = Random::new(5);
        for sheet in (0..4_000).map(|_| generate::sheet(&mut random)).filter(carries) {
            for instruction in sheet.blocks.iter().flat_map(|b| &b.instructions) {
                let value = match instruction.value {
                    sheet::Value::Plain => 0,
                    sheet::Value::Function(_) => 1,
                    sheet::Value::StoreContext(_) => 2,
                };
                let list = match &instruction.effects {
                    None => 0,
                    Some(effects) if effects.is_empty() => 1,
                    Some(_) => 2,
                };
                counts[value][list] += 1;
            }
        }
        for lists in counts {
            let all: usize = lists.iter().sum();
            assert!(lists.iter().all(|list| *list > all / 12), "{counts:?}");
        }
        println!(
            "{counts:?} instructions by value, each without a list, with an empty and a full one"
        );
    }
}
