// print generic
// without definition files and without operations, there are no bytes
// -----
// print generic tg.irdl
%0 = "t.src"() : () -> i32
"t.nop"() : () -> ()
%1, %2 = "t.two"() : () -> (i32, i64)
// -----
// print generic tg.irdl
// blanks and comments are laid out anew, and the one result stands bare
%a="t.src"():()->(i32)%b // %b
  =
    "t.src" ( ) : ( ) -> i32
// ---->
%0 = "t.src"() : () -> i32
%1 = "t.src"() : () -> i32
// -----
// print generic tg.irdl
// a function type as the one result stands in parentheses
%0 = "t.src"() : () -> (() -> i32)
// ---->
%0 = "t.src"() : () -> (() -> (i32))
// -----
// print generic tg.irdl
// the same by way of an alias
!f = () -> ()
%0 = "t.src"() : () -> !f
// ---->
%0 = "t.src"() : () -> (() -> ())
// -----
// print generic u.irdl
// a use may stand before the definition, and in the very operation
%x = "u.same"(%x, %y) : (i8, i8) -> i8
%y = "u.same"(%y, %x) : (i8, i8) -> i8
// ---->
%0 = "u.same"(%0, %1) : (i8, i8) -> i8
%1 = "u.same"(%1, %0) : (i8, i8) -> i8
// -----
// print generic tg.irdl u.irdl
// a result without a name has a number too
"t.two"() : () -> (i32, i64)
%x = "t.src"() : () -> i8
"u.use"(%x) : (i8) -> ()
// ---->
%0, %1 = "t.two"() : () -> (i32, i64)
%2 = "t.src"() : () -> i8
"u.use"(%2) : (i8) -> ()
// -----
// print generic tg.irdl u.irdl
// a name means its first result
%p:2 = "t.two"() : () -> (i32, i64)
"u.use"(%p) : (i32) -> ()
"u.use"(%p#0) : (i32) -> ()
"u.use"(%p#1) : (i64) -> ()
// ---->
%0, %1 = "t.two"() : () -> (i32, i64)
"u.use"(%0) : (i32) -> ()
"u.use"(%0) : (i32) -> ()
"u.use"(%1) : (i64) -> ()
// -----
// print generic u.irdl
// packs beside single results
%a, %b:2, %c = "u.some"() : () -> (i8, i8, i8, i8)
"u.row"(%c, %b#1, %a#0, %b) : (i8, i8, i8, i8) -> ()
"u.some"() : () -> ()
// ---->
%0, %1, %2, %3 = "u.some"() : () -> (i8, i8, i8, i8)
"u.row"(%3, %2, %0, %1) : (i8, i8, i8, i8) -> ()
"u.some"() : () -> ()
// -----
// print generic tg.irdl
// segments of operands
%p:2 = "t.two"() : () -> (i32, i64)
"t.pair"(%p, %p#1) {operandSegmentSizes = array<i32: 1, 1>} : (i32, i64) -> ()
"t.pair"(%p, %p) <{operandSegmentSizes = array<i32: 0, 2>}> : (i32, i32) -> ()
"t.pair"() {operandSegmentSizes = array<i32: 0, 0>} : () -> ()
// ---->
%0, %1 = "t.two"() : () -> (i32, i64)
"t.pair"(%0, %1) {operandSegmentSizes = array<i32: 1, 1>} : (i32, i64) -> ()
"t.pair"(%0, %0) {operandSegmentSizes = array<i32: 0, 2>} : (i32, i32) -> ()
"t.pair"() {operandSegmentSizes = array<i32: 0, 0>} : () -> ()
// -----
// print generic u.irdl
// segments of results
%0, %1, %2 = "u.split"() {resultSegmentSizes = array<i32: 2, 1>} : () -> (i8, i8, i16)
%3 = "u.split"() {resultSegmentSizes = array<i32: 0, 1>} : () -> i8
// -----
// print generic tg.irdl
// where sizes aren't needed, their name is that of any attribute
"t.nop"() {operandSegmentSizes = "a", resultSegmentSizes} : () -> ()
// -----
// verify tg.irdl
// the second of two choices fits
%0 = "t.src"() : () -> !t.pr<i32, i64>
%1 = "t.src"() : () -> i64
"t.pick"(%0, %1) : (!t.pr<i32, i64>, i64) -> ()
// -----
// verify tg.irdl
// the first of two choices fits
%0 = "t.src"() : () -> !t.pr<i32, i64>
%1 = "t.src"() : () -> i32
"t.pick"(%0, %1) : (!t.pr<i32, i64>, i32) -> ()
// -----
// verify tg.irdl
%0 = "t.src"() : () -> !t.pr<i32, i64>
%1 = "t.src"() : () -> i8
  "t.pick"(%0, %1) : (!t.pr<i32, i64>, i8) -> ()
//^ error M19 Unsatisfied
// -----
// verify tg.irdl
  "t.zip"() : () -> ()
//^ error M17 OpUnknown
// -----
// verify tg.irdl
// a name without a dot is none of a definition
  "nop"() : () -> ()
//^ error M17 OpUnknown
// -----
// verify tg.irdl
// a type is no operation
  "t.pr"() : () -> ()
//^ error M17 OpUnknown
// -----
// verify
// nor is a word of definition files
  "irdl.operation"() : () -> ()
//^ error M17 OpUnknown
// -----
// verify tg.irdl u.irdl
// more uses than types
%a = "t.src"() : () -> i8
  "u.use"(%a) : () -> ()
//^ error M18 Arity
// -----
// verify u.irdl
// more types than uses
  "u.use"() : (i8) -> ()
//^ error M18 Arity
// -----
// verify tg.irdl
// fewer names than results
%a = "t.two"() : () -> (i8, i16)
//   ^ error M18 Arity
// -----
// verify tg.irdl
// more names than results
%a, %b = "t.src"() : () -> i8
//       ^ error M18 Arity
// -----
// verify tg.irdl
// a pack counts as many as its size
%p:3 = "t.two"() : () -> (i8, i16)
//     ^ error M18 Arity
// -----
// verify tg.irdl
%a = "t.nop"() : () -> ()
//   ^ error M18 Arity
// -----
// verify u.irdl
// a single operand is missing
  "u.use"() : () -> ()
//^ error M19 Unsatisfied
// -----
// verify tg.irdl u.irdl
// a single operand stands twice
%a = "t.src"() : () -> i8
  "u.use"(%a, %a) : (i8, i8) -> ()
//^ error M19 Unsatisfied
// -----
// verify tg.irdl
// a result that isn't declared
  "t.nop"() : () -> i8
//^ error M19 Unsatisfied
// -----
// verify tg.irdl u.irdl
// an optional operand stands once at most
%a = "t.src"() : () -> i8
"u.maybe"() : () -> ()
"u.maybe"(%a) : (i8) -> ()
  "u.maybe"(%a, %a) : (i8, i8) -> ()
//^ error M19 Unsatisfied
// -----
// verify tg.irdl u.irdl
// the operands of one entry have one type
%a, %b = "t.two"() : () -> (i8, i16)
"u.row"() : () -> ()
  "u.row"(%a, %b) : (i8, i16) -> ()
//^ error M19 Unsatisfied
// -----
// verify tg.irdl u.irdl
// operands and result of one variable
%a = "t.src"() : () -> i8
%b = "u.same"(%a, %a) : (i8, i8) -> i16
//   ^ error M19 Unsatisfied
// -----
// verify tg.irdl
// the sizes of segments are missing
  "t.pair"() : () -> ()
//^ error M19 Unsatisfied
// -----
// verify tg.irdl
// sizes that add up to less
%a = "t.src"() : () -> i8
  "t.pair"(%a, %a) {operandSegmentSizes = array<i32: 1, 0>} : (i8, i8) -> ()
//^ error M19 Unsatisfied
// -----
// verify tg.irdl
// a size below 0
%a = "t.src"() : () -> i8
  "t.pair"(%a, %a) {operandSegmentSizes = array<i32: -1, 3>} : (i8, i8) -> ()
//^ error M19 Unsatisfied
// -----
// verify tg.irdl
// a size for each entry
%a = "t.src"() : () -> i8
  "t.pair"(%a, %a) {operandSegmentSizes = array<i32: 2>} : (i8, i8) -> ()
//^ error M19 Unsatisfied
// -----
// verify tg.irdl
// sizes are items of 32 bits
%a = "t.src"() : () -> i8
  "t.pair"(%a, %a) {operandSegmentSizes = array<i64: 1, 1>} : (i8, i8) -> ()
//^ error M19 Unsatisfied
// -----
// verify u.irdl
// an optional result has the size 2
  "u.split"() {resultSegmentSizes = array<i32: 0, 2>} : () -> (i8, i8)
//^ error M19 Unsatisfied
// -----
// verify u.irdl
// a required attribute is missing
  "u.number"() {w = 1} : () -> ()
//^ error M19 Unsatisfied
// -----
// verify u.irdl
// the attribute is no number
  "u.number"() {v = "1"} : () -> ()
//^ error M19 Unsatisfied
// -----
// print generic u.irdl
// two attributes of one variable, the same number spelled in two ways
"u.tie"() {v = 255 : i8, w = -1 : i8} : () -> ()
// ---->
"u.tie"() {v = -1 : i8, w = -1 : i8} : () -> ()
// -----
// verify u.irdl
// two numbers of other types aren't one value
  "u.tie"() {v = 1 : i8, w = 1} : () -> ()
//^ error M19 Unsatisfied
// -----
// verify tg.irdl
// a predicate
"t.pos"() {v = 3} : () -> ()
  "t.pos"() {v = 0} : () -> ()
//^ error M19 Unsatisfied
// -----
// verify tg.irdl
// a predicate on what is kept
  "t.pos"() {v = 255 : i8} : () -> ()
//^ error M19 Unsatisfied
// -----
// verify tg.irdl
// an optional attribute that is there keeps to its constraint
"t.box"() ({}) {flag} : () -> ()
  "t.box"() ({}) {flag = true} : () -> ()
//^ error M19 Unsatisfied
// -----
// verify tg.irdl
// too few regions
  "t.box"() : () -> ()
//^ error M19 Unsatisfied
// -----
// verify tg.irdl
// too many regions
  "t.nop"() ({}) : () -> ()
//^ error M19 Unsatisfied
// -----
// verify tg.irdl
// too few successors
  "t.br"() : () -> ()
//^ error M19 Unsatisfied
// -----
// verify
// the name of a module is a string
"builtin.module"() ({}) {sym_name = "m"} : () -> ()
  "builtin.module"() ({}) {sym_name = @m} : () -> ()
//^ error M19 Unsatisfied
// -----
// verify cmath.irdl
%a = "cmath.make"() : () -> !cmath.complex<f32>
%b = "cmath.norm"(%a) : (!cmath.complex<f32>) -> f64
//   ^ error M19 Unsatisfied
// -----
// verify cmath.irdl tg.irdl
%a = "cmath.make"() : () -> f32
//   ^ error M19 Unsatisfied
// -----
// verify tg.irdl
// a terminator stands last at top level too
  "t.ret"() : () -> ()
//^ error M21 NotLast
"t.nop"() : () -> ()
// -----
// verify tg.irdl
"t.nop"() : () -> ()
"t.ret"() : () -> ()
// -----
// verify tg.irdl
%a = "t.src"() : () -> i32
"t.ret"(%a) : (i64) -> ()
//      ^ error M20 UseType
// -----
// verify tg.irdl u.irdl
// the use is told, not its number
%p:2 = "t.two"() : () -> (i32, i64)
"u.row"(%p#1, %p#0) : (i64, i64) -> ()
//            ^ error M20 UseType
// -----
// verify u.irdl
// a use before the definition
"u.use"(%x) : (i16) -> ()
//      ^ error M20 UseType
%x = "u.some"() : () -> i8
