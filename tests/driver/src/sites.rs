// The places where the original's builders and guards return or choose a rule, by file and line. The build has each of
// them counted in the metered copy, and fails if a text does not stand on its line exactly once.
use Form::{Arm, Before, Empty, Expected, None, Pass, Unless, Unlike, When};
use Reach::{Grown, Never, Other};

// The text of a place, and how it is counted.
#[derive(Clone, Copy)]
pub enum Form {
    // A statement or a block's last expression, when it is come to.
    Before(&'static str),
    // An expression, once it has a value.
    Pass(&'static str),
    // An option, if it is None.
    None(&'static str),
    // A condition, if it holds.
    When(&'static str),
    // A condition, if it fails.
    Unless(&'static str),
    // What an arm gives, when it is come to.
    Arm(&'static str),
    // A statement, when it is come to and this pattern is not that of this place.
    Unlike(&'static str, &'static str, &'static str),
    // An arm that does nothing.
    Empty,
    // An option that has to be there, by the text after it.
    Expected(&'static str),
}

// Where a whole run must come to the place.
#[derive(Clone, Copy, PartialEq, Eq)]
pub enum Reach {
    Grown,
    // Only on regions that no calls could have grown, for this reason.
    Other(&'static str),
    // Nowhere, for this reason.
    Never(&'static str),
}

#[derive(Clone, Copy)]
pub struct Site {
    pub file: &'static str,
    pub line: usize,
    pub form: Form,
    pub reach: Reach,
}

type Row = (usize, Form, Reach);

// Why identity of another type always succeeds in a grown graph.
const TYPED: &str = "an operand has the type asked for, or a range inside it";

// Why these never give None: only a division of Bits, and a binary or a Negate of an Integer, can.
const ANSWERED: &str =
    "Truncate, comparisons, and binaries of Bits but divisions always have an answer";

#[rustfmt::skip]
const NATIVE: &[Row] = &[
    // identity
    (249, Before("return Some(value);"), Grown),
    (256, Pass("self.unary(ty, Unary::Truncate(width), value)"), Other(TYPED)),
    (259, None("self.scalars[value].range"), Other(TYPED)),
    (261, Before("return None;"), Never("only an Integer has a range below 0")),
    (264, None("self.scalars[value].range"), Other(TYPED)),
    (266, Before("return None;"), Other(TYPED)),
    (269, Before("Some(self.insert("), Grown),
    // unary
    (275, Pass("Some(self.constant(ty, evaluate_unary(operation, value)?))"), Grown),
    (275, None("evaluate_unary(operation, value)"), Grown),
    (281, Before("return Some(value);"), Grown),
    (289, Before("return self.identity(ty, value);"), Grown),
    (296, Before("return self.identity(ty, value);"), Grown),
    (302, Before("return self.identity(ty, value);"), Grown),
    (306, None("self.scalars[value].range"), Grown),
    (307, Before("Some(Range {"), Grown),
    (308, None("r.max.checked_neg()"), Grown),
    (309, None("r.min.checked_neg()"), Grown),
    (313, Before("Some(Range {"), Grown),
    (318, Pass("type_range(ty)"), Grown),
    (320, Before("Some(self.insert(ty, range, Operation::Unary(operation, value)))"), Grown),
    // binary
    (345, Before("return self.binary(ty, operation, right, left);"), Grown),
    (348, Pass("Some(self.constant(ty, evaluate_binary(operation, ty, a, b)?))"), Grown),
    (348, None("evaluate_binary(operation, ty, a, b)"), Grown),
    (361, Before("return Some(self.constant(ty, 0));"), Grown),
    (365, Before("source = previous;"), Grown),
    (376, Before("return self.identity(ty, slice);"), Grown),
    (380, Before("return self.binary(ty, Binary::ShiftLeft, slice, amount);"), Grown),
    (384, Before("return self.binary(ty, operation, base, amount);"), Grown),
    (391, Before("return Some(value);"), Grown),
    (401, Before("target.wrapping_add(offset)"), Grown),
    (403, Before("target.wrapping_sub(offset)"), Grown),
    (406, Before("return self.binary(ty, operation, base, target);"), Grown),
    (410, Pass("Some(true)"), Grown),
    (411, Pass("Some(false)"), Grown),
    (412, Pass("Some(false)"), Grown),
    (413, Pass("Some(true)"), Grown),
    (418, Before("Some(true)"), Grown),
    (420, Before("Some(false)"), Grown),
    (422, Before("None"), Grown),
    (429, Before("Some(true)"), Grown),
    (431, Before("Some(false)"), Grown),
    (433, Before("None"), Grown),
    (436, Pass("None"), Grown),
    (439, Before("return Some(self.constant(ScalarType::Bool, u128::from(value)));"), Grown),
    (445, Before("return Some(self.constant(ScalarType::Bool, 1));"), Grown),
    (448, Before("return Some(self.constant(ScalarType::Bool, 0));"), Grown),
    (450, Pass("Some(self.constant(ty, 0))"), Grown),
    (451, Pass("self.identity(ty, left)"), Grown),
    (452, Empty, Grown),
    (467, Before("return self.identity(ty, left);"), Grown),
    (470, Before("return Some(self.constant(ty, 0));"), Grown),
    (476, Before("return self.identity(ty, left);"), Grown),
    (482, Before("return Some(self.constant(ty, mask(width)));"), Grown),
    (486, Before("return Some(left);"), Grown),
    (489, Before("return Some(right);"), Grown),
    (498, None("evaluate_binary(operation, ty, a, b)"), Never("And, Or and Xor of two values always have one")),
    (499, Before("return self.binary(ty, operation, base, constant);"), Grown),
    (502, None("self.binary(ty, Binary::And, base, right)"), Never(ANSWERED)),
    (504, Before("return self.binary(ty, Binary::Or, masked, constant);"), Grown),
    (508, None("self.scalars[left].range"), Grown),
    (509, None("self.scalars[right].range"), Grown),
    (511, Pass("a.add(b)?"), Grown),
    (511, None("a.add(b)"), Grown),
    (512, Pass("a.sub(b)?"), Grown),
    (512, None("a.sub(b)"), Grown),
    (513, Pass("a.mul(b)?"), Grown),
    (513, None("a.mul(b)"), Grown),
    (514, When("a.min >= 0 && b.min >= 0"), Grown),
    (518, When("a.min >= 0 && b.min > 0"), Grown),
    (522, When("a.min >= 0 && b.min > 0"), Grown),
    (530, None("b.min.checked_abs()"), Grown),
    (530, None("b.max.checked_abs()"), Never("then the minimum has no absolute value either")),
    (531, Before("Range {"), Grown),
    (537, None("a.min.checked_div(b.min)"), Never("the arm leaves out 0, and -2^127 by -1")),
    (538, None("a.min.checked_div(b.max)"), Never("the arm leaves out 0, and -2^127 by -1")),
    (539, None("a.max.checked_div(b.min)"), Never("the arm leaves out 0, and -2^127 by -1")),
    (540, None("a.max.checked_div(b.max)"), Never("the arm leaves out 0, and -2^127 by -1")),
    (542, Before("Range {"), Grown),
    (543, None("values.iter().min()"), Never("there are four values")),
    (544, None("values.iter().max()"), Never("there are four values")),
    (548, Pass("None"), Grown),
    (555, Pass("a.add(b)"), Grown),
    (555, None("a.add(b)"), Grown),
    (556, Pass("a.sub(b)"), Grown),
    (556, None("a.sub(b)"), Other("the range of a Bits is not below 0")),
    (557, Pass("a.mul(b)"), Grown),
    (557, None("a.mul(b)"), Grown),
    (558, When("a.min >= 0 && b.min >= 0"), Grown),
    (562, When("a.min >= 0 && b.min >= 0 && b.max < 127"), Grown),
    (566, Pass("Range { min, max }"), Grown),
    (567, When("a.min >= 0 && b.min >= 0"), Grown),
    (569, Before("0"), Grown),
    (571, Before("a.min >> b.max as u32"), Grown),
    (574, Before("0"), Grown),
    (576, Before("a.max >> b.min as u32"), Grown),
    (579, Pass("None"), Grown),
    (581, When("width < 128 && range.min >= 0 && range.max <= mask(width) as i128"), Grown),
    (582, Pass("type_range(ty)"), Grown),
    (584, Before("type_range(ty)"), Grown),
    (591, Before("return self.binary(ty, Binary::And, left, bits);"), Grown),
    (598, None("evaluate_binary(Binary::Add, ty, a, b)"), Grown),
    (599, Before("return self.binary(ty, Binary::Add, base, increment);"), Grown),
    (608, Before("return self.binary(ty, Binary::Sub, base, decrement);"), Grown),
    (610, Before("Some(self.insert(ty, range, Operation::Binary(operation, left, right)))"), Grown),
    // slice
    (616, Before("return self.constant("), Grown),
    (624, Before("return value;"), Grown),
    (630, Before("0"), Grown),
    (635, Before("return self.constant(ScalarType::Bits(width), 0);"), Grown),
    (638, Before("return self"), Grown),
    (640, Expected(".expect("), Never("a value that fits is stored as a Refine")),
    (644, Before("return self.constant(ScalarType::Bits(width), 0);"), Grown),
    (647, Before("return value;"), Grown),
    (654, Pass("self.slice(value, base + offset, width)"), Grown),
    (661, Before("return self.slice(high, offset - low_width, width);"), Grown),
    (664, Before("return self.slice(low, offset, width);"), Grown),
    (669, Before("return self.concat(upper, lower, lower_width, width);"), Grown),
    (671, Empty, Grown),
    (673, Before("self.insert("), Grown),
    // concat
    (694, Before("return self.slice(low, 0, width);"), Grown),
    (697, Before("return self.slice(high, 0, width);"), Grown),
    (700, Before("return self.constant("), Grown),
    (720, Before("return self.slice(*a, *lo, width);"), Grown),
    (723, Before("return value;"), Grown),
    (725, Before("self.insert("), Grown),
];

#[rustfmt::skip]
const BITFIELD: &[Row] = &[
    // bit
    (11, Before("return None;"), Grown),
    (15, Before("return Some(Bit::Constant(false));"), Grown),
    (18, Pass("Some(Bit::Constant(value & (1u128 << index) != 0))"), Grown),
    (19, Pass("self.bit(value, index, depth + 1)"), Grown),
    (22, Before("self.bit(value, index, depth + 1)"), Grown),
    (24, Before("Some(Bit::Constant(false))"), Other("a Truncate has the width of its type")),
    (33, Before("Some(Bit::Constant(false))"), Other("a Slice has the width of its type")),
    (35, Before("self.bit(value, offset + index, depth + 1)"), Grown),
    (44, Before("self.bit(low, index, depth + 1)"), Grown),
    (46, Before("self.bit(high, index - low_width, depth + 1)"), Grown),
    (53, None("self.literal(constant)"), Never("the arm's condition says that there is one")),
    (55, Pass("Some(Bit::Constant(false))"), Grown),
    (56, Pass("Some(Bit::Constant(true))"), Grown),
    (57, None("self.bit(value, index, depth + 1)"), Grown),
    (58, Pass("Some(Bit::Constant(!value))"), Grown),
    (59, Pass("None"), Grown),
    (61, Pass("self.bit(value, index, depth + 1)"), Grown),
    (64, Pass("Some(Bit::Source(id, index))"), Grown),
    // fold_bitfield_concat
    (80, Before("return None;"), Other("the low operand has the low width")),
    (87, None("self.bit(low, index, 0)"), Grown),
    (89, None("self.bit(high, index - low_width, 0)"), Grown),
    (100, Pass("None"), Grown),
    (105, Before("return Some(self.constant(ty, literal));"), Grown),
    (108, Before("return None;"), Grown),
    (111, None("self.binary(ty, Binary::And, base, keep)"), Never(ANSWERED)),
    (113, Pass("self.binary(ty, Binary::Or, preserved, literal)"), Grown),
    (113, None("self.binary(ty, Binary::Or, preserved, literal)"), Never(ANSWERED)),
    // fold_masked_comparison
    (124, Before("continue;"), Grown),
    (127, Before("continue;"), Other("operands of a comparison have one type")),
    (131, None("self.literal(constant)"), Grown),
    (133, Pass("(updated, 0)"), Grown),
    (144, None("self.binary(ty, Binary::And, base, changed)"), Never(ANSWERED)),
    (146, Pass("self.binary(ScalarType::Bool, operation, actual, expected)"), Grown),
    (146, None("self.binary(ScalarType::Bool, operation, actual, expected)"), Never(ANSWERED)),
    (149, Before("None"), Grown),
];

#[rustfmt::skip]
const MODULAR: &[Row] = &[
    (11, Before("return Some(self.resolve(previous));"), Grown),
    (13, Before("source = previous;"), Grown),
    (18, Before("return None;"), Grown),
    (21, Before("return None;"), Grown),
    (27, Before("return None;"), Grown),
    (29, None("self.unary(ty, Unary::Truncate(width), a)"), Never(ANSWERED)),
    (30, None("self.unary(ty, Unary::Truncate(width), b)"), Never(ANSWERED)),
    (31, Pass("self.binary(ty, operation, a, b)"), Grown),
    (31, None("self.binary(ty, operation, a, b)"), Never(ANSWERED)),
];

// Why these are not come to in a grown graph.
const RANGED: &str = "the base of a sum that has a range has one";
const CLOSED: &str = "a sum of Integers has its operands' sums as ends";

#[rustfmt::skip]
const ASSUME: &[Row] = &[
    // unsigned_range
    (8, Before("return None;"), Grown),
    (11, Before("return None;"), Grown),
    (14, None("self.binary(ty, Binary::Sub, value, lower)"), Never(ANSWERED)),
    (16, Pass("self.binary(ScalarType::Bool, Binary::LessEqualUnsigned, offset, extent)"), Grown),
    (16, None("self.binary(ScalarType::Bool, Binary::LessEqualUnsigned, offset, extent)"), Never(ANSWERED)),
    // resolve
    (21, Before("id = *next;"), Grown),
    // refine
    (29, Before("return;"), Other(RANGED)),
    (35, When("range == old"), Grown),
    (35, When("range.min > range.max"), Grown),
    (35, When("self.scalars[id].ty == ScalarType::Bool"), Grown),
    (39, Before("self.aliases.insert(id, next);"), Grown),
    (42, Before("origin = previous;"), Grown),
    (44, Unlike("if let Operation::Binary(operation, base, constant)", "Operation::Binary(..)", "self.scalars[origin].operation"), Grown),
    (45, Unless("self.scalars[base].ty == self.scalars[id].ty"), Grown),
    (46, None("self.literal(constant)"), Grown),
    (50, Unless("width < 128"), Grown),
    (50, When("matches!(operation, Binary::Add | Binary::Sub)"), Grown),
    (50, Unless("matches!(operation, Binary::Add | Binary::Sub)"), Grown),
    (54, Before("(value as u128).wrapping_add(offset)"), Grown),
    (56, Before("(value as u128).wrapping_sub(offset)"), Grown),
    (60, When("min <= max"), Grown),
    (60, Unless("min <= max"), Grown),
    (62, When("matches!(operation, Binary::Add | Binary::Sub)"), Grown),
    (62, Unless("matches!(operation, Binary::Add | Binary::Sub)"), Grown),
    (66, Pass("value.checked_add(offset)"), Grown),
    (68, Pass("value.checked_sub(offset)"), Grown),
    (71, None("convert(range.min)"), Other(CLOSED)),
    (71, None("convert(range.max)"), Other(CLOSED)),
    (73, Arm("None"), Grown),
    (76, Before("self.refine(base, Some(min), Some(max));"), Grown),
    // assume_guard
    (85, Before("condition = value;"), Grown),
    (89, Before("return;"), Grown),
    (92, None("self.scalars[a].range"), Grown),
    (92, None("self.scalars[b].range"), Grown),
    (93, Before("return;"), Grown),
    (96, When("left.min < 0"), Grown),
    (96, When("right.min < 0"), Grown),
    (98, Before("return;"), Grown),
    (101, Before("op = Binary::Equal;"), Grown),
    (106, Before("self.refine(a, None, right.max.checked_sub(1));"), Grown),
    (106, None("right.max.checked_sub(1)"), Grown),
    (107, Before("self.refine(b, left.min.checked_add(1), None);"), Grown),
    (107, None("left.min.checked_add(1)"), Grown),
    (110, Before("self.refine(a, Some(right.min), None);"), Grown),
    (111, Before("self.refine(b, None, Some(left.max));"), Grown),
    (114, Before("self.refine(a, None, Some(right.max));"), Grown),
    (115, Before("self.refine(b, Some(left.min), None);"), Grown),
    (118, Before("self.refine(a, right.min.checked_add(1), None);"), Grown),
    (118, None("right.min.checked_add(1)"), Grown),
    (119, Before("self.refine(b, None, left.max.checked_sub(1));"), Grown),
    (119, None("left.max.checked_sub(1)"), Grown),
    (122, Before("self.refine(a, Some(right.min), Some(right.max));"), Grown),
    (123, Before("self.refine(b, Some(left.min), Some(left.max));"), Grown),
    (126, When("right.min == right.max"), Grown),
    (126, Unless("right.min == right.max"), Grown),
    (129, When("left.min == right.min"), Grown),
    (129, Unless("left.min == right.min"), Grown),
    (130, None("left.min.checked_add(1)"), Grown),
    (132, When("left.max == right.max"), Grown),
    (132, Unless("left.max == right.max"), Grown),
    (133, None("left.max.checked_sub(1)"), Grown),
    (137, When("left.min == left.max"), Grown),
    (137, Unless("left.min == left.max"), Grown),
    (140, When("right.min == left.min"), Grown),
    (140, Unless("right.min == left.min"), Grown),
    (141, None("right.min.checked_add(1)"), Grown),
    (143, When("right.max == left.max"), Grown),
    (143, Unless("right.max == left.max"), Grown),
    (144, None("right.max.checked_sub(1)"), Grown),
    (149, Empty, Grown),
];

#[rustfmt::skip]
const LINEAR: &[Row] = &[
    // guard
    (14, Before("condition = value;"), Grown),
    (18, Before("return None;"), Grown),
    (29, Before("return None;"), Grown),
    (34, Expected(".is_some_and("), Grown),
    (34, When("range.min >= 0 && range.max <= i128::from(u64::MAX)"), Grown),
    (34, Unless("range.min >= 0 && range.max <= i128::from(u64::MAX)"), Grown),
    (36, Unless("host64"), Grown),
    (38, Arm("Binary::LessUnsigned"), Grown),
    (39, Arm("Binary::LessEqualUnsigned"), Grown),
    (40, Arm("op"), Grown),
    (43, Before("Some(Guard {"), Grown),
    // matches
    (58, Arm("left == right"), Grown),
    (59, Arm("left != right"), Grown),
    (60, Arm("left < right"), Grown),
    (61, Arm("left <= right"), Grown),
    (62, Arm("unreachable!(\"host word comparison\")"), Never("question 4 leaves out the others")),
    (65, Before("super::evaluate_binary(self.operation, ScalarType::Bool, left, right)"), Grown),
    (66, Expected(".expect("), Never("a comparison always has a value")),
    (69, When("value == self.expected"), Grown),
    (69, Unless("value == self.expected"), Grown),
];

const FILES: [(&str, &[Row]); 5] = [
    ("native.rs", NATIVE),
    ("bitfield.rs", BITFIELD),
    ("modular.rs", MODULAR),
    ("assume.rs", ASSUME),
    ("linear.rs", LINEAR),
];

pub const COUNT: usize =
    NATIVE.len() + BITFIELD.len() + MODULAR.len() + ASSUME.len() + LINEAR.len();

// All of them; their numbers are their places in this list.
pub fn sites() -> impl Iterator<Item = Site> {
    FILES.into_iter().flat_map(|(file, rows)| {
        rows.iter().map(move |(line, form, reach)| Site {
            file,
            line: *line,
            form: *form,
            reach: *reach,
        })
    })
}

impl Site {
    // File and line, and apart what leaves by None, a condition that fails and a pattern that is not there.
    pub fn name(&self) -> String {
        let Site { file, line, .. } = self;
        match self.form {
            None(_) | Expected(_) => format!("{file}:{line} None"),
            Unless(_) => format!("{file}:{line} not"),
            Unlike(..) => format!("{file}:{line} unlike"),
            _ => format!("{file}:{line}"),
        }
    }

    pub fn text(&self) -> &'static str {
        match self.form {
            Before(text)
            | Pass(text)
            | None(text)
            | When(text)
            | Unless(text)
            | Arm(text)
            | Unlike(text, ..)
            | Expected(text) => text,
            Empty => "{}",
        }
    }
}
