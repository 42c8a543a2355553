//! Forms of `InstructionValue` and `Terminal` that carry given lists of places, in the
//! visitors' order. Where several can, a number chooses.

use original::react_compiler_hir::{
    ArrayElement, ArrayPattern, ArrayPatternElement, BlockId, BuiltinTag, Case, EvaluationOrder,
    FunctionExpressionType, FunctionId, GotoVariant, InstructionKind, InstructionValue,
    JsxAttribute, JsxTag, LValue, LValuePattern, LoweredFunction, ManualMemoDependency,
    ManualMemoDependencyRoot, NonLocalBinding, ObjectPattern, ObjectProperty, ObjectPropertyKey,
    ObjectPropertyOrSpread, ObjectPropertyType, Pattern, Place, PlaceOrSpread, PrimitiveValue,
    PropertyLiteral, ScopeId, SpreadPattern, Terminal, TypeCast, UnaryOperator,
};
use oxc_allocator::{Allocator, Vec as ArenaVec};
use oxc_ast::ast::{BinaryOperator, LogicalOperator, TSType, UpdateOperator};
use oxc_str::{Ident, Str};

type Form = for<'a> fn(&[Place], &'a Allocator) -> InstructionValue<'a>;

const NAME: Ident<'static> = Ident::new("name");
const TEXT: Str<'static> = Str::new("text");
const PROPERTY: PropertyLiteral<'static> = PropertyLiteral::String(NAME);

fn lvalue(place: Place) -> LValue {
    LValue { place, kind: InstructionKind::Let }
}

fn spread(place: Place) -> SpreadPattern {
    SpreadPattern { place }
}

fn arena<'a, T>(items: impl IntoIterator<Item = T>, allocator: &'a Allocator) -> ArenaVec<'a, T> {
    ArenaVec::from_iter_in(items, allocator)
}

/// Every third argument is spread.
fn arguments<'a>(places: &[Place], allocator: &'a Allocator) -> ArenaVec<'a, PlaceOrSpread> {
    let argument = |(i, &place): (usize, &Place)| match i % 3 {
        2 => PlaceOrSpread::Spread(spread(place)),
        _ => PlaceOrSpread::Place(place),
    };
    arena(places.iter().enumerate().map(argument), allocator)
}

fn property<'a>(key: ObjectPropertyKey<'a>, place: Place) -> ObjectPropertyOrSpread<'a> {
    let property_type = ObjectPropertyType::Property;
    ObjectPropertyOrSpread::Property(ObjectProperty { key, property_type, place })
}

/// Half of the places as attributes, the others as children.
fn jsx<'a>(tag: JsxTag<'a>, places: &[Place], allocator: &'a Allocator) -> InstructionValue<'a> {
    let (props, children) = places.split_at(places.len().div_ceil(2));
    let prop = |(i, &place): (usize, &Place)| match i % 2 {
        0 => JsxAttribute::Attribute { name: NAME, place },
        _ => JsxAttribute::SpreadAttribute { argument: place },
    };
    InstructionValue::JsxExpression {
        tag,
        props: arena(props.iter().enumerate().map(prop), allocator),
        children: (!children.is_empty()).then(|| arena(children.iter().copied(), allocator)),
        span: None,
        opening_span: None,
        closing_span: None,
    }
}

// =============================================================================
// Operands alone
// =============================================================================

/// Without places.
const NONE: [Form; 6] = [
    |_, _| InstructionValue::Primitive { value: PrimitiveValue::Null, span: None },
    |_, _| InstructionValue::JSXText { value: TEXT, span: None },
    |_, _| InstructionValue::RegExpLiteral { pattern: TEXT, flags: TEXT, span: None },
    |_, _| InstructionValue::MetaProperty { meta: NAME, property: NAME, span: None },
    |_, _| InstructionValue::LoadGlobal {
        binding: NonLocalBinding::Global { name: NAME },
        span: None,
    },
    |_, _| InstructionValue::Debugger { span: None },
];

/// One operand.
const ONE: [Form; 11] = [
    |p, _| InstructionValue::LoadLocal { place: p[0], span: None },
    |p, _| InstructionValue::LoadContext { place: p[0], span: None },
    |p, _| InstructionValue::StoreGlobal { name: NAME, value: p[0], span: None },
    |p, _| InstructionValue::PropertyLoad { object: p[0], property: PROPERTY, span: None },
    |p, _| InstructionValue::PropertyDelete { object: p[0], property: PROPERTY, span: None },
    |p, _| InstructionValue::UnaryExpression {
        operator: UnaryOperator::Minus,
        value: p[0],
        span: None,
    },
    |p, _| InstructionValue::TypeCastExpression {
        value: p[0],
        cast: TypeCast::As(&TSType(&())),
        span: None,
    },
    |p, _| InstructionValue::Await { value: p[0], span: None },
    |p, _| InstructionValue::GetIterator { collection: p[0], span: None },
    |p, _| InstructionValue::NextPropertyOf { value: p[0], span: None },
    |p, _| InstructionValue::FinishMemoize {
        manual_memo_id: 0,
        decl: p[0],
        pruned: false,
        span: None,
    },
];

/// Two operands.
const TWO: [Form; 5] = [
    |p, _| InstructionValue::BinaryExpression {
        operator: BinaryOperator::Equality,
        left: p[0],
        right: p[1],
        span: None,
    },
    |p, _| InstructionValue::PropertyStore {
        object: p[0],
        property: PROPERTY,
        value: p[1],
        span: None,
    },
    |p, _| InstructionValue::ComputedLoad { object: p[0], property: p[1], span: None },
    |p, _| InstructionValue::ComputedDelete { object: p[0], property: p[1], span: None },
    |p, _| InstructionValue::IteratorNext { iterator: p[0], collection: p[1], span: None },
];

/// Three operands.
const THREE: [Form; 1] = [|p, _| InstructionValue::ComputedStore {
    object: p[0],
    property: p[1],
    value: p[2],
    span: None,
}];

/// Any number of operands: the first six from none on, the next four from one, the last from two.
const MANY: [Form; 11] = [
    |p, allocator| jsx(JsxTag::Builtin(BuiltinTag { name: NAME }), p, allocator),
    object_expression,
    array_expression,
    |p, allocator| InstructionValue::JsxFragment {
        children: arena(p.iter().copied(), allocator),
        span: None,
    },
    |p, allocator| InstructionValue::TemplateLiteral {
        subexprs: arena(p.iter().copied(), allocator),
        quasis: ArenaVec::new_in(allocator),
        span: None,
    },
    start_memoize,
    |p, allocator| InstructionValue::NewExpression {
        callee: p[0],
        args: arguments(&p[1..], allocator),
        span: None,
    },
    |p, allocator| InstructionValue::CallExpression {
        callee: p[0],
        args: arguments(&p[1..], allocator),
        span: None,
    },
    |p, allocator| jsx(JsxTag::Place(p[0]), &p[1..], allocator),
    |p, allocator| InstructionValue::TaggedTemplateExpression {
        tag: p[0],
        quasis: ArenaVec::new_in(allocator),
        subexprs: arena(p[1..].iter().copied(), allocator),
        span: None,
    },
    |p, allocator| InstructionValue::MethodCall {
        receiver: p[0],
        property: p[1],
        args: arguments(&p[2..], allocator),
        span: None,
    },
];

/// How many of `MANY` carry so many operands.
fn carrying(operands: usize) -> usize {
    match operands {
        0 => 6,
        1 => 10,
        _ => 11,
    }
}

/// A computed key, a named one and a spread, again and again.
fn object_expression<'a>(mut places: &[Place], allocator: &'a Allocator) -> InstructionValue<'a> {
    let mut properties = ArenaVec::new_in(allocator);
    while let [first, rest @ ..] = places {
        places = rest;
        properties.push(match (properties.len() % 3, rest) {
            (0, [second, rest @ ..]) => {
                places = rest;
                property(ObjectPropertyKey::Computed { name: *first }, *second)
            }
            (1, _) => property(ObjectPropertyKey::String { name: NAME }, *first),
            _ => ObjectPropertyOrSpread::Spread(spread(*first)),
        });
    }
    InstructionValue::ObjectExpression { properties, span: None }
}

/// A hole before every second element, and every third one spread.
fn array_expression<'a>(places: &[Place], allocator: &'a Allocator) -> InstructionValue<'a> {
    let mut elements = ArenaVec::new_in(allocator);
    for (i, &place) in places.iter().enumerate() {
        if i % 2 == 1 {
            elements.push(ArrayElement::Hole);
        }
        elements.push(match i % 3 {
            2 => ArrayElement::Spread(spread(place)),
            _ => ArrayElement::Place(place),
        });
    }
    InstructionValue::ArrayExpression { elements, span: None }
}

/// A global one before every local dependency; none without operands.
fn start_memoize<'a>(places: &[Place], allocator: &'a Allocator) -> InstructionValue<'a> {
    let dependency = |root| ManualMemoDependency { root, path: arena([], allocator), span: None };
    let mut deps = ArenaVec::new_in(allocator);
    for &value in places {
        deps.push(dependency(ManualMemoDependencyRoot::Global { identifier_name: NAME }));
        deps.push(dependency(ManualMemoDependencyRoot::NamedLocal { value, constant: false }));
    }
    InstructionValue::StartMemoize {
        manual_memo_id: 0,
        deps: (!places.is_empty()).then_some(deps),
        deps_span: None,
        has_invalid_deps: false,
        span: None,
    }
}

// =============================================================================
// With lvalues
// =============================================================================

/// An lvalue without operands.
fn declare<'a>(place: Place, choice: usize) -> InstructionValue<'a> {
    match choice % 2 {
        0 => InstructionValue::DeclareLocal { lvalue: lvalue(place), span: None },
        _ => InstructionValue::DeclareContext { lvalue: lvalue(place), span: None },
    }
}

/// An lvalue and an operand.
fn store<'a>(place: Place, value: Place, choice: usize) -> InstructionValue<'a> {
    let operation = UpdateOperator::Increment;
    match choice % 3 {
        0 => InstructionValue::StoreLocal { lvalue: lvalue(place), value, span: None },
        1 => InstructionValue::PrefixUpdate { lvalue: place, operation, value, span: None },
        _ => InstructionValue::PostfixUpdate { lvalue: place, operation, value, span: None },
    }
}

/// Any lvalues and an operand.
fn destructure<'a>(
    lvalues: &[Place],
    value: Place,
    choice: usize,
    allocator: &'a Allocator,
) -> InstructionValue<'a> {
    let pattern = match choice % 2 {
        0 => {
            let mut items = ArenaVec::new_in(allocator);
            for (i, &place) in lvalues.iter().enumerate() {
                if i % 3 == 1 {
                    items.push(ArrayPatternElement::Hole);
                }
                items.push(match i + 1 == lvalues.len() {
                    true => ArrayPatternElement::Spread(spread(place)),
                    false => ArrayPatternElement::Place(place),
                });
            }
            Pattern::Array(ArrayPattern { items })
        }
        _ => {
            let item = |(i, &place): (usize, &Place)| match i % 2 {
                0 => property(ObjectPropertyKey::Identifier { name: NAME }, place),
                _ => ObjectPropertyOrSpread::Spread(spread(place)),
            };
            let properties = arena(lvalues.iter().enumerate().map(item), allocator);
            Pattern::Object(ObjectPattern { properties })
        }
    };
    let lvalue = LValuePattern { pattern, kind: InstructionKind::Let };
    InstructionValue::Destructure { lvalue, value, span: None }
}

/// A plain value with these lists, if there is a form for them.
pub fn plain<'a>(
    lvalues: &[Place],
    operands: &[Place],
    choice: usize,
    allocator: &'a Allocator,
) -> Option<InstructionValue<'a>> {
    let own: &[Form] = match (lvalues, operands) {
        ([], []) => &NONE,
        ([], [value]) if choice.is_multiple_of(9) => {
            return Some(destructure(&[], *value, choice / 9, allocator));
        }
        ([], [_]) => &ONE,
        ([], [_, _]) => &TWO,
        ([], [_, _, _]) => &THREE,
        ([], _) => &[],
        ([place], []) => return Some(declare(*place, choice)),
        ([place], [value]) if choice % 5 < 3 => return Some(store(*place, *value, choice % 5)),
        (_, [value]) => return Some(destructure(lvalues, *value, choice, allocator)),
        _ => return None,
    };
    let at = choice % (own.len() + carrying(operands.len()));
    let form = own.get(at).unwrap_or_else(|| &MANY[at - own.len()]);
    Some(form(operands, allocator))
}

/// The creation of an inner function.
pub fn function<'a>(number: u32, choice: usize) -> InstructionValue<'a> {
    let lowered_func = LoweredFunction { func: FunctionId::from_usize(number as usize) };
    match choice % 2 {
        0 => InstructionValue::FunctionExpression {
            name: None,
            name_hint: None,
            lowered_func,
            expr_type: FunctionExpressionType::FunctionExpression,
            span: None,
        },
        _ => InstructionValue::ObjectMethod { span: None, lowered_func },
    }
}

/// The target and the value of a StoreContext. The target is an lvalue and an operand.
pub fn store_context<'a>(target: Place, value: Place) -> InstructionValue<'a> {
    InstructionValue::StoreContext { lvalue: lvalue(target), value, span: None }
}

// =============================================================================
// Terminals
// =============================================================================

const ENTRY: BlockId = BlockId::ENTRY;

fn try_of(handler_binding: Option<Place>, id: EvaluationOrder) -> Terminal<'static> {
    let (block, handler, fallthrough) = (ENTRY, ENTRY, ENTRY);
    Terminal::Try { block, handler_binding, handler, fallthrough, id, span: None }
}

/// Of a form that goes one of two ways, by a test.
macro_rules! two_ways {
    ($form:ident) => {
        |test, id| {
            let (consequent, alternate, fallthrough) = (ENTRY, ENTRY, ENTRY);
            Terminal::$form { test, consequent, alternate, fallthrough, id, span: None }
        }
    };
}

/// Of a form that is a scope.
macro_rules! scope {
    ($form:ident) => {
        |id| {
            let (block, scope) = (ENTRY, ScopeId::from_usize(0));
            Terminal::$form { fallthrough: ENTRY, block, scope, id, span: None }
        }
    };
}

/// Without operands.
const NO_OPERANDS: [fn(EvaluationOrder) -> Terminal<'static>; 15] = [
    |id| Terminal::Unreachable { id, span: None },
    |id| Terminal::Goto { block: ENTRY, variant: GotoVariant::Break, id, span: None },
    |id| Terminal::DoWhile { loop_block: ENTRY, test: ENTRY, fallthrough: ENTRY, id, span: None },
    |id| Terminal::While { test: ENTRY, loop_block: ENTRY, fallthrough: ENTRY, id, span: None },
    |id| Terminal::For {
        init: ENTRY,
        test: ENTRY,
        update: None,
        loop_block: ENTRY,
        fallthrough: ENTRY,
        id,
        span: None,
    },
    |id| Terminal::ForOf {
        init: ENTRY,
        test: ENTRY,
        loop_block: ENTRY,
        fallthrough: ENTRY,
        id,
        span: None,
    },
    |id| Terminal::ForIn { init: ENTRY, loop_block: ENTRY, fallthrough: ENTRY, id, span: None },
    |id| Terminal::Logical {
        operator: LogicalOperator::Or,
        test: ENTRY,
        fallthrough: ENTRY,
        id,
        span: None,
    },
    |id| Terminal::Ternary { test: ENTRY, fallthrough: ENTRY, id, span: None },
    |id| Terminal::Optional { optional: true, test: ENTRY, fallthrough: ENTRY, id, span: None },
    |id| Terminal::Label { block: ENTRY, fallthrough: ENTRY, id, span: None },
    |id| Terminal::Sequence { block: ENTRY, fallthrough: ENTRY, id, span: None },
    |id| try_of(None, id),
    scope!(Scope),
    scope!(PrunedScope),
];

/// One operand.
const ONE_OPERAND: [fn(Place, EvaluationOrder) -> Terminal<'static>; 4] = [
    |value, id| Terminal::Throw { value, id, span: None },
    two_ways!(If),
    two_ways!(Branch),
    |binding, id| try_of(Some(binding), id),
];

/// A terminal with these operands, neither Return nor MaybeThrow.
pub fn terminal<'a>(
    operands: &[Place],
    id: EvaluationOrder,
    choice: usize,
    allocator: &'a Allocator,
) -> Terminal<'a> {
    match operands {
        [] => NO_OPERANDS[choice % NO_OPERANDS.len()](id),
        [operand] if choice % 5 < ONE_OPERAND.len() => ONE_OPERAND[choice % 5](*operand, id),
        // A default case before every second one.
        [test, tests @ ..] => {
            let mut cases = ArenaVec::new_in(allocator);
            for (i, &test) in tests.iter().enumerate() {
                if i % 2 == 1 {
                    cases.push(Case { test: None, block: ENTRY });
                }
                cases.push(Case { test: Some(test), block: ENTRY });
            }
            Terminal::Switch { test: *test, cases, fallthrough: ENTRY, id, span: None }
        }
    }
}
