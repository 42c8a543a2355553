//! What sheets and answers are made of, under the names of the original.

use std::fmt;

use crate::limits;

/// Defines an enum whose cases stand for the words 0, 1, 2, ..
macro_rules! numbered {
    ($(#[$doc:meta])* $name:ident: $($(#[$case_doc:meta])* $case:ident),+ $(,)?) => {
        $(#[$doc])*
        #[derive(Debug, Clone, Copy, PartialEq, Eq, PartialOrd, Ord, Hash)]
        #[repr(u32)]
        pub enum $name {
            $($(#[$case_doc])* $case),+
        }

        impl $name {
            /// All, in the order of their numbers.
            pub const ALL: &'static [$name] = &[$($name::$case),+];

            /// The names, in the same order.
            pub const NAMES: &'static [&'static str] = &[$(stringify!($case)),+];

            /// The position, from 0: the word that stands for it.
            pub const fn number(self) -> u32 {
                self as u32
            }

            /// The case of a word; none if it stands for none.
            pub fn from_number(number: u32) -> Option<$name> {
                $name::ALL.get(number as usize).copied()
            }

            /// The name, as in the original.
            pub const fn name(self) -> &'static str {
                $name::NAMES[self as usize]
            }

            /// The case of this name; none if there is none.
            pub fn from_name(name: &str) -> Option<$name> {
                $name::ALL.iter().copied().find(|case| case.name() == name)
            }
        }

        impl fmt::Display for $name {
            fn fmt(&self, f: &mut fmt::Formatter) -> fmt::Result {
                f.pad(self.name())
            }
        }
    };
}

/// An identifier's number, below the sheet's count of identifiers.
#[derive(Debug, Clone, Copy, PartialEq, Eq, PartialOrd, Ord, Hash, Default)]
pub struct IdentifierId(pub u32);

/// A block's number, at most 65,535.
#[derive(Debug, Clone, Copy, PartialEq, Eq, PartialOrd, Ord, Hash, Default)]
pub struct BlockId(pub u32);

/// An inner function's number, below the sheet's count of inner functions.
#[derive(Debug, Clone, Copy, PartialEq, Eq, PartialOrd, Ord, Hash, Default)]
pub struct FunctionId(pub u32);

/// A diagnostic's identity, at most 65,535: what it says.
#[derive(Debug, Clone, Copy, PartialEq, Eq, PartialOrd, Ord, Hash, Default)]
pub struct DiagnosticId(pub u32);

/// A diagnostic's instance, at most 65,535: where it was raised.
#[derive(Debug, Clone, Copy, PartialEq, Eq, PartialOrd, Ord, Hash, Default)]
pub struct DiagnosticInstanceId(pub u32);

/// A diagnostic: its identity and its instance, both the host's own numbers.
#[derive(Debug, Clone, Copy, PartialEq, Eq, PartialOrd, Ord, Hash, Default)]
pub struct AliasingDiagnostic {
    /// What it says.
    pub identity: DiagnosticId,
    /// Where it was raised.
    pub instance: DiagnosticInstanceId,
}

impl AliasingDiagnostic {
    /// The diagnostic of these two numbers.
    pub const fn new(identity: u32, instance: u32) -> AliasingDiagnostic {
        AliasingDiagnostic {
            identity: DiagnosticId(identity),
            instance: DiagnosticInstanceId(instance),
        }
    }

    /// The diagnostic's two words, the identity first.
    pub const fn words(self) -> [u32; 2] {
        [self.identity.0, self.instance.0]
    }
}

impl fmt::Display for AliasingDiagnostic {
    fn fmt(&self, f: &mut fmt::Formatter) -> fmt::Result {
        write!(f, "{}/{}", self.identity.0, self.instance.0)
    }
}

/// An instruction's order (at most 999,999), and each end of a range (at most 1,000,000).
#[derive(Debug, Clone, Copy, PartialEq, Eq, PartialOrd, Ord, Hash, Default)]
pub struct EvaluationOrder(pub u32);

impl EvaluationOrder {
    /// The order of a range that has none yet.
    pub const UNSET: EvaluationOrder = EvaluationOrder(0);
}

/// From where to where a value may change: half-open, `start..end`. `0..0` is unset.
#[derive(Debug, Clone, Copy, PartialEq, Eq, Hash, Default)]
pub struct MutableRange {
    /// The first order at which the value may change.
    pub start: EvaluationOrder,
    /// The first order at which it no longer does.
    pub end: EvaluationOrder,
}

numbered! {
    /// An identifier's type, as far as the pass looks at it.
    Type:
    /// Neither of the others, or not known.
    Other,
    /// A number, a string or the like.
    Primitive,
    /// An element made by JSX.
    Jsx,
}

/// An identifier of a sheet: its range as known so far, and its type.
#[derive(Debug, Clone, Copy, PartialEq, Eq, Hash)]
pub struct Identifier {
    /// The range as known so far; the answer moves its end, and sets its start where it is unset.
    pub range: MutableRange,
    /// The type, which decides what Create says of the value returned.
    pub type_: Type,
}

impl Default for Identifier {
    /// No range yet, type other.
    fn default() -> Identifier {
        Identifier { range: MutableRange::default(), type_: Type::Other }
    }
}

numbered! {
    /// How a place uses its identifier.
    Effect:
    /// Nothing is said.
    Unknown,
    /// It is frozen.
    Freeze,
    /// It is read.
    Read,
    /// It is captured; in an answer, of a parameter or context variable: the function changes it.
    Capture,
    /// An iterator that may be advanced.
    ConditionallyMutateIterator,
    /// It is changed if it can be.
    ConditionallyMutate,
    /// It is changed.
    Mutate,
    /// Something is stored in it.
    Store,
}

/// A use of an identifier.
#[derive(Debug, Clone, Copy, PartialEq, Eq, Hash)]
pub struct Place {
    /// The identifier.
    pub identifier: IdentifierId,
    /// How it is used.
    pub effect: Effect,
    /// Whether it can change from one render to the next.
    pub reactive: bool,
    /// Where it stands in the source text, in the host's own numbers; 0 for none.
    pub span: u32,
}

impl Place {
    /// A place of this identifier, with nothing else said.
    pub const fn of(identifier: IdentifierId) -> Place {
        Place { identifier, effect: Effect::Unknown, reactive: false, span: 0 }
    }

    /// The place with this span.
    pub const fn span(self, span: u32) -> Place {
        Place { span, ..self }
    }

    /// The place's three words.
    pub const fn words(&self) -> [u32; 3] {
        [self.identifier.0, self.effect.number() + 8 * self.reactive as u32, self.span]
    }

    /// The place of three words; none if the traits word is above 15.
    pub fn from_words(words: [u32; 3]) -> Option<Place> {
        let [identifier, traits, span] = words;
        let effect = Effect::from_number(traits % 8)?;
        (traits < 16).then_some(Place {
            identifier: IdentifierId(identifier),
            effect,
            reactive: traits >= 8,
            span,
        })
    }
}

numbered! {
    /// What a value is known to be.
    ValueKind:
    /// It can be changed.
    Mutable,
    /// It must not be changed.
    Frozen,
    /// It cannot be changed.
    Primitive,
    /// One of the first two.
    MaybeFrozen,
    /// It belongs to no function.
    Global,
    /// It belongs to a function around this one.
    Context,
}

numbered! {
    /// Why a value is what it is.
    ValueReason:
    /// The signature of the function that returned it says so.
    KnownReturnSignature,
    /// It is state (`useState`).
    State,
    /// It is a reducer's state (`useReducer`).
    ReducerState,
    /// It comes from a context (`useContext`).
    Context,
    /// It was given to an effect hook.
    Effect,
    /// A hook has captured it.
    HookCaptured,
    /// A hook returned it.
    HookReturn,
    /// It belongs to no function.
    Global,
    /// JSX has captured it.
    JsxCaptured,
    /// It was stored in a local variable.
    StoreLocal,
    /// It is an argument of a component or hook.
    ReactiveFunctionArgument,
    /// None of these.
    Other,
}

numbered! {
    /// The reason that a mutation can give. Its word is 1, since 0 stands for none.
    MutationReason:
    /// The property `current` is assigned.
    AssignCurrentProperty
}

numbered! {
    /// The cases of [`AliasingEffect`], without what they hold.
    EffectKind:
    /// Of [`AliasingEffect::Freeze`].
    Freeze,
    /// Of [`AliasingEffect::Mutate`].
    Mutate,
    /// Of [`AliasingEffect::MutateConditionally`].
    MutateConditionally,
    /// Of [`AliasingEffect::MutateTransitive`].
    MutateTransitive,
    /// Of [`AliasingEffect::MutateTransitiveConditionally`].
    MutateTransitiveConditionally,
    /// Of [`AliasingEffect::Capture`].
    Capture,
    /// Of [`AliasingEffect::Alias`].
    Alias,
    /// Of [`AliasingEffect::MaybeAlias`].
    MaybeAlias,
    /// Of [`AliasingEffect::Assign`].
    Assign,
    /// Of [`AliasingEffect::Create`].
    Create,
    /// Of [`AliasingEffect::CreateFrom`].
    CreateFrom,
    /// Of [`AliasingEffect::ImmutableCapture`].
    ImmutableCapture,
    /// Of [`AliasingEffect::Apply`].
    Apply,
    /// Of [`AliasingEffect::CreateFunction`].
    CreateFunction,
    /// Of [`AliasingEffect::MutateFrozen`].
    MutateFrozen,
    /// Of [`AliasingEffect::MutateGlobal`].
    MutateGlobal,
    /// Of [`AliasingEffect::Impure`].
    Impure,
    /// Of [`AliasingEffect::Render`].
    Render,
}

impl EffectKind {
    /// How many places an effect of this kind has.
    pub const fn places(self) -> u32 {
        use EffectKind::*;
        match self {
            Apply => 0,
            Capture | Alias | MaybeAlias | Assign | CreateFrom | ImmutableCapture => 2,
            _ => 1,
        }
    }

    /// The largest extra word of an effect of this kind.
    pub const fn most_extra(self) -> u32 {
        use EffectKind::*;
        match self {
            Freeze => 11,
            Mutate => 1,
            Create => 71,
            CreateFunction => 63,
            MutateFrozen | MutateGlobal | Impure => limits::DIAGNOSTIC,
            _ => 0,
        }
    }

    /// Whether it has a diagnostic: its identity is the extra word, its instance the first word of
    /// the second place.
    pub const fn is_diagnosis(self) -> bool {
        matches!(self, EffectKind::MutateFrozen | EffectKind::MutateGlobal | EffectKind::Impure)
    }

    /// Whether it relates two values in an instruction; see [`Held`](crate::Held) for what is stored.
    pub const fn is_relation(self) -> bool {
        use EffectKind::*;
        matches!(self, Capture | Alias | MaybeAlias | Assign | CreateFrom)
    }

    /// Whether it is a mutation in an instruction, and so counts towards 512.
    pub const fn is_mutation(self) -> bool {
        use EffectKind::*;
        matches!(
            self,
            Mutate | MutateConditionally | MutateTransitive | MutateTransitiveConditionally
        )
    }
}

/// What an instruction's value is, as far as the pass over operands looks at it.
#[derive(Debug, Clone, Copy, PartialEq, Eq, Hash, Default)]
pub enum InstructionValue {
    /// None of the others.
    #[default]
    Plain,
    /// FunctionExpression or ObjectMethod: this inner function is made, and its context places are
    /// operands too.
    Function(FunctionId),
    /// StoreContext: this identifier's value is stored in a context variable.
    StoreContext(IdentifierId),
}

/// What an instruction or a terminal does to values.
#[derive(Debug, Clone, Copy, PartialEq, Eq, Hash)]
pub enum AliasingEffect {
    /// The value is frozen: it must not be changed from here on.
    Freeze {
        /// What is frozen.
        value: Place,
        /// Why.
        reason: ValueReason,
    },
    /// The value is changed, but nothing that it has captured.
    Mutate {
        /// What is changed.
        value: Place,
        /// What is done to it, where that matters.
        reason: Option<MutationReason>,
    },
    /// The same, if the value can be changed.
    MutateConditionally {
        /// What is changed.
        value: Place,
    },
    /// The value is changed, and all that it has captured.
    MutateTransitive {
        /// What is changed.
        value: Place,
    },
    /// The same, of what can be changed.
    MutateTransitiveConditionally {
        /// What is changed.
        value: Place,
    },
    /// `into` holds `from`: changing `into` with all that it has captured changes `from`.
    Capture {
        /// What is there before.
        from: Place,
        /// What it goes into.
        into: Place,
    },
    /// `into` and `from` are one value, or parts of one: changing one changes the other.
    Alias {
        /// What is there before.
        from: Place,
        /// What it goes into.
        into: Place,
    },
    /// They may be one value: changing one may change the other.
    MaybeAlias {
        /// What is there before.
        from: Place,
        /// What it goes into.
        into: Place,
    },
    /// `into` is a name for the value that `from` names.
    Assign {
        /// What is there before.
        from: Place,
        /// What it goes into.
        into: Place,
    },
    /// A new value.
    Create {
        /// The value.
        into: Place,
        /// What it is.
        value: ValueKind,
        /// Why.
        reason: ValueReason,
    },
    /// A new value that is a part of `from`: changing `into` changes `from`.
    CreateFrom {
        /// What is there before.
        from: Place,
        /// What it goes into.
        into: Place,
    },
    /// `into` holds `from` and cannot change it. Does nothing in this pass.
    ImmutableCapture {
        /// What is there before.
        from: Place,
        /// What it goes into.
        into: Place,
    },
    /// A call whose effects are not known. Does nothing in a terminal; among the effects of an
    /// instruction it is refused 10.
    Apply,
    /// A new value that is an inner function.
    CreateFunction {
        /// The value.
        into: Place,
        /// The inner function.
        function_id: FunctionId,
    },
    /// A frozen value is changed: an error.
    MutateFrozen {
        /// What it is about.
        place: Place,
        /// The diagnostic that is recorded.
        error: AliasingDiagnostic,
    },
    /// A global value is changed: an error.
    MutateGlobal {
        /// What it is about.
        place: Place,
        /// The diagnostic that is recorded.
        error: AliasingDiagnostic,
    },
    /// Something impure is done: an error.
    Impure {
        /// What it is about.
        place: Place,
        /// The diagnostic that is recorded.
        error: AliasingDiagnostic,
    },
    /// The value is used while rendering.
    Render {
        /// What is used.
        place: Place,
    },
}

impl AliasingEffect {
    /// Create with a mutable value of a known signature, all of whose words but the kind and the
    /// identifier are 0.
    pub const fn create(into: IdentifierId) -> AliasingEffect {
        AliasingEffect::Create {
            into: Place::of(into),
            value: ValueKind::Mutable,
            reason: ValueReason::KnownReturnSignature,
        }
    }

    /// The case, without what it holds.
    pub const fn kind(&self) -> EffectKind {
        match self {
            AliasingEffect::Freeze { .. } => EffectKind::Freeze,
            AliasingEffect::Mutate { .. } => EffectKind::Mutate,
            AliasingEffect::MutateConditionally { .. } => EffectKind::MutateConditionally,
            AliasingEffect::MutateTransitive { .. } => EffectKind::MutateTransitive,
            AliasingEffect::MutateTransitiveConditionally { .. } => {
                EffectKind::MutateTransitiveConditionally
            }
            AliasingEffect::Capture { .. } => EffectKind::Capture,
            AliasingEffect::Alias { .. } => EffectKind::Alias,
            AliasingEffect::MaybeAlias { .. } => EffectKind::MaybeAlias,
            AliasingEffect::Assign { .. } => EffectKind::Assign,
            AliasingEffect::Create { .. } => EffectKind::Create,
            AliasingEffect::CreateFrom { .. } => EffectKind::CreateFrom,
            AliasingEffect::ImmutableCapture { .. } => EffectKind::ImmutableCapture,
            AliasingEffect::Apply => EffectKind::Apply,
            AliasingEffect::CreateFunction { .. } => EffectKind::CreateFunction,
            AliasingEffect::MutateFrozen { .. } => EffectKind::MutateFrozen,
            AliasingEffect::MutateGlobal { .. } => EffectKind::MutateGlobal,
            AliasingEffect::Impure { .. } => EffectKind::Impure,
            AliasingEffect::Render { .. } => EffectKind::Render,
        }
    }

    /// The first place ("from", or the only one) and the second ("into").
    pub const fn places(&self) -> (Option<Place>, Option<Place>) {
        use AliasingEffect::*;
        match *self {
            Apply => (None, None),
            Capture { from, into }
            | Alias { from, into }
            | MaybeAlias { from, into }
            | Assign { from, into }
            | CreateFrom { from, into }
            | ImmutableCapture { from, into } => (Some(from), Some(into)),
            Freeze { value: place, .. }
            | Mutate { value: place, .. }
            | MutateConditionally { value: place }
            | MutateTransitive { value: place }
            | MutateTransitiveConditionally { value: place }
            | Create { into: place, .. }
            | CreateFunction { into: place, .. }
            | MutateFrozen { place, .. }
            | MutateGlobal { place, .. }
            | Impure { place, .. }
            | Render { place } => (Some(place), None),
        }
    }

    /// The diagnostic of MutateFrozen, MutateGlobal and Impure.
    pub const fn diagnostic(&self) -> Option<AliasingDiagnostic> {
        use AliasingEffect::*;
        match *self {
            MutateFrozen { error, .. } | MutateGlobal { error, .. } | Impure { error, .. } => {
                Some(error)
            }
            _ => None,
        }
    }

    /// The extra word.
    pub const fn extra(&self) -> u32 {
        use AliasingEffect::*;
        match *self {
            Freeze { reason, .. } => reason.number(),
            Mutate { reason: Some(reason), .. } => reason.number() + 1,
            Create { value, reason, .. } => 6 * reason.number() + value.number(),
            CreateFunction { function_id, .. } => function_id.0,
            MutateFrozen { error, .. } | MutateGlobal { error, .. } | Impure { error, .. } => {
                error.identity.0
            }
            _ => 0,
        }
    }

    /// The effect's eight words.
    pub fn words(&self) -> [u32; 8] {
        let (first, second) = self.places();
        let [a, b, c] = first.map_or([0; 3], |place| place.words());
        let instance = self.diagnostic().map_or(0, |error| error.instance.0);
        let [d, e, f] = second.map_or([instance, 0, 0], |place| place.words());
        [self.kind().number(), a, b, c, d, e, f, self.extra()]
    }

    /// The effect of eight words; none if they are those of no effect. Identifiers and inner
    /// functions are not held against a sheet's counts.
    pub fn from_words(words: [u32; 8]) -> Option<AliasingEffect> {
        let [kind, a, b, c, d, e, f, extra] = words;
        let kind = EffectKind::from_number(kind)?;
        let first = Place::from_words([a, b, c])?;
        let second = Place::from_words([d, e, f])?;
        let effect = AliasingEffect::of(kind, first, second, extra)?;
        (effect.words() == words).then_some(effect)
    }

    /// The effect of these parts, of which the kind uses some; none if the extra word or the
    /// instance is above its limit.
    pub(crate) fn of(
        kind: EffectKind,
        first: Place,
        second: Place,
        extra: u32,
    ) -> Option<AliasingEffect> {
        if extra > kind.most_extra() {
            return None;
        }
        let (from, into) = (first, second);
        let error = AliasingDiagnostic::new(extra, second.identifier.0);
        if kind.is_diagnosis() && error.instance.0 > limits::DIAGNOSTIC {
            return None;
        }
        Some(match kind {
            EffectKind::Freeze => {
                AliasingEffect::Freeze { value: first, reason: ValueReason::from_number(extra)? }
            }
            EffectKind::Mutate => AliasingEffect::Mutate {
                value: first,
                reason: (extra == 1).then_some(MutationReason::AssignCurrentProperty),
            },
            EffectKind::MutateConditionally => AliasingEffect::MutateConditionally { value: first },
            EffectKind::MutateTransitive => AliasingEffect::MutateTransitive { value: first },
            EffectKind::MutateTransitiveConditionally => {
                AliasingEffect::MutateTransitiveConditionally { value: first }
            }
            EffectKind::Capture => AliasingEffect::Capture { from, into },
            EffectKind::Alias => AliasingEffect::Alias { from, into },
            EffectKind::MaybeAlias => AliasingEffect::MaybeAlias { from, into },
            EffectKind::Assign => AliasingEffect::Assign { from, into },
            EffectKind::Create => AliasingEffect::Create {
                into: first,
                value: ValueKind::from_number(extra % 6)?,
                reason: ValueReason::from_number(extra / 6)?,
            },
            EffectKind::CreateFrom => AliasingEffect::CreateFrom { from, into },
            EffectKind::ImmutableCapture => AliasingEffect::ImmutableCapture { from, into },
            EffectKind::Apply => AliasingEffect::Apply,
            EffectKind::CreateFunction => {
                AliasingEffect::CreateFunction { into: first, function_id: FunctionId(extra) }
            }
            EffectKind::MutateFrozen => AliasingEffect::MutateFrozen { place: first, error },
            EffectKind::MutateGlobal => AliasingEffect::MutateGlobal { place: first, error },
            EffectKind::Impure => AliasingEffect::Impure { place: first, error },
            EffectKind::Render => AliasingEffect::Render { place: first },
        })
    }
}
