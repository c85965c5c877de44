// verify tg.irdl u.irdl
// no operation is read in custom form
  t.nop
//^ error M1 Syntax
// -----
// verify tg.irdl u.irdl
// nor a module
  module {}
//^ error M1 Syntax
// -----
// verify tg.irdl u.irdl
// names are parted by commas
%0 %1 = "t.two"() : () -> (i8, i8)
// ^ error M1 Syntax
// -----
// verify tg.irdl u.irdl
// and an operation stands behind them
%0 = %1 = "t.src"() : () -> i8
//   ^ error M1 Syntax
// -----
// verify tg.irdl u.irdl
// the size of a pack is a number
%p:%q = "t.two"() : () -> (i8, i8)
// ^ error M1 Syntax
// -----
// verify tg.irdl u.irdl
// the number of a result has digits
"u.use"(%p#a) : (i8) -> ()
//        ^ error M1 Syntax
// -----
// verify tg.irdl u.irdl
// a name has parentheses behind it
"t.nop" : () -> ()
//      ^ error M1 Syntax
// -----
// verify tg.irdl u.irdl
// operands are names
"u.use"(i8) : (i8) -> ()
//      ^ error M1 Syntax
// -----
// verify tg.irdl u.irdl
// a comma has a name behind it
"u.use"(%a,) : (i8) -> ()
//         ^ error M1 Syntax
// -----
// verify tg.irdl u.irdl
// there is a successor in brackets
"u.to"()[] : () -> ()
//       ^ error M1 Syntax
// -----
// verify tg.irdl u.irdl
// successors are labels
"u.to"()[%a] : () -> ()
//       ^ error M1 Syntax
// -----
// verify tg.irdl u.irdl
// there is a region in parentheses
"u.body"() () : () -> ()
//          ^ error M1 Syntax
// -----
// verify tg.irdl u.irdl
// a comma has a region behind it
"u.body"() ({},) : () -> ()
//             ^ error M1 Syntax
// -----
// verify tg.irdl u.irdl
// properties stand before regions
"u.body"() ({}) <{}> : () -> ()
//              ^ error M1 Syntax
// -----
// verify tg.irdl u.irdl
// successors stand before properties
"u.to"() <{}> [^a] : () -> ()
//            ^ error M1 Syntax
// -----
// verify tg.irdl u.irdl
// there is one dictionary
"t.nop"() {} {} : () -> ()
//           ^ error M1 Syntax
// -----
// verify tg.irdl u.irdl
// types of operands stand in parentheses
"u.use"(%a) : i8 -> ()
//            ^ error M1 Syntax
// -----
// verify tg.irdl u.irdl
// there is an arrow
"t.nop"() : () "t.nop"() : () -> ()
//             ^ error M1 Syntax
// -----
// verify tg.irdl u.irdl
// behind a list of results stands no arrow
%0 = "t.src"() : () -> () -> i8
//                        ^ error M1 Syntax
// -----
// verify tg.irdl u.irdl
// an attribute is no type
%0 = "t.src"() : () -> 5
//                     ^ error M1 Syntax
// -----
// verify tg.irdl u.irdl
// an alias of an attribute is no type
#a = i8
%0 = "t.src"() : () -> #a
//                     ^ error M1 Syntax
// -----
// verify tg.irdl u.irdl
// a key is a word or a string
"t.nop"() {1 = 2} : () -> ()
//         ^ error M1 Syntax
// -----
// verify tg.irdl u.irdl
// a value stands behind the sign
"t.nop"() {a = } : () -> ()
//             ^ error M1 Syntax
// -----
// verify tg.irdl u.irdl
// a comma has an entry behind it
"t.nop"() {a,} : () -> ()
//           ^ error M1 Syntax
// -----
// verify tg.irdl u.irdl
// a type of no bits is a word
%0 = "t.src"() : () -> i0
//                     ^ error M1 Syntax
// -----
// verify tg.irdl u.irdl
// so is one with too many
%0 = "t.src"() : () -> i16777216
//                     ^ error M1 Syntax
// -----
// verify tg.irdl u.irdl
// and a float type of eight bits
%0 = "t.src"() : () -> f8
//                     ^ error M1 Syntax
// -----
// verify tg.irdl u.irdl
// a dense array has one of five types
"t.nop"() {a = array<i2: 1>} : () -> ()
//                   ^ error M1 Syntax
// -----
// verify tg.irdl u.irdl
// a colon has an item behind it
"t.nop"() {a = array<i8:>} : () -> ()
//                      ^ error M1 Syntax
// -----
// verify tg.irdl u.irdl
// an alias has no parameters
!a = i8
%0 = "t.src"() : () -> !a<i8>
//                       ^ error M1 Syntax
// -----
// verify tg.irdl u.irdl
// a name with a dot is none of an alias
  !a.b = i8
//^ error M1 Syntax
// -----
// verify tg.irdl u.irdl
// an alias of a type is a type
!a = 5
//   ^ error M1 Syntax
// -----
// verify tg.irdl u.irdl
// aliases stand before operations
"t.nop"() : () -> ()
  !a = i8
//^ error M1 Syntax
// -----
// verify tg.irdl u.irdl
// labels stand in regions
"t.nop"() : () -> ()
  ^a:
//^ error M1 Syntax
// -----
// verify tg.irdl u.irdl
// a label has a colon behind it
"u.body"() ({
^a
  "t.nop"() : () -> ()
//^ error M1 Syntax
}) : () -> ()
// -----
// verify tg.irdl u.irdl
// an argument has a name
"u.body"() ({
^a(i8):
// ^ error M1 Syntax
}) : () -> ()
// -----
// verify tg.irdl u.irdl
// and a type
"u.body"() ({
^a(%x):
//   ^ error M1 Syntax
}) : () -> ()
// -----
// verify tg.irdl u.irdl
// no brace closes what none opened
"t.nop"() : () -> ()
  }
//^ error M1 Syntax
// -----
// verify tg.irdl u.irdl
// locations are left out
"t.nop"() : () -> () loc(unknown)
//                   ^ error M1 Syntax
// -----
// verify tg.irdl u.irdl
// a float is told as one
"t.nop"() {v = [1, 2.0e-3]} : () -> ()
//                 ^ error M2 FloatLiteral
// -----
// verify tg.irdl u.irdl
// behind a sign too
"t.nop"() {v = -1.5} : () -> ()
//              ^ error M2 FloatLiteral
// -----
// verify tg.irdl u.irdl
// and where no value stands
"t.nop"() 1. : () -> ()
//        ^ error M2 FloatLiteral
// -----
// verify tg.irdl u.irdl
// an unclosed string is bad at its quote
"t.nop"() {v = "a} : () -> ()
//             ^ error M3 BadToken
// -----
// verify tg.irdl u.irdl
// so is one with a line feed in it
"t.nop"() {v = "a
//             ^ error M3 BadToken
b"} : () -> ()
// -----
// verify tg.irdl u.irdl
// and one with an escape that there is none of
"t.nop"() {v = "\q"} : () -> ()
//             ^ error M3 BadToken
// -----
// verify tg.irdl u.irdl
// a sign that begins no token
"t.nop"() {v = 'a'} : () -> ()
//             ^ error M3 BadToken
// -----
// verify tg.irdl u.irdl
// a sign without a name
"u.use"(% a) : (i8) -> ()
//      ^ error M3 BadToken
// -----
// verify tg.irdl u.irdl
// a number goes on with no other
"t.nop"() {v = 1 2.0 : f32} : () -> ()
//               ^ error M2 FloatLiteral
// -----
// verify tg.irdl u.irdl
// a token that is too deep counts before a later one
"t.nop"() {v = [[[[[[[[[[[[[[[[[[[[[[[[[[[[[[[[[[[[[[[[[[[[[[[[[[[[[[[[[[[[[[[[[ } : () -> ()
//                                                                             ^ error M4 Nesting
// -----
// verify tg.irdl u.irdl
// and an earlier token before it
"t.nop"() {a = , v = [[[[[[[[[[[[[[[[[[[[[[[[[[[[[[[[[[[[[[[[[[[[[[[[[[[[[[[[[[[[[[[[[]]]]]]]]]]]]]]]]]]]]]]]]]]]]]]]]]]]]]]]]]]]]]]]]]]]]]]]]]]]]]]]]]} : () -> ()
//             ^ error M1 Syntax
