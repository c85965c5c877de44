// verify tg.irdl u.irdl
// syntax before names
"u.use"(%x) : (i8) -> ()
"t.nop"() ;
//        ^ error M3 BadToken
// -----
// verify tg.irdl u.irdl
// names before values
"t.nop"() {v = 256 : i8} : () -> ()
"u.use"(%x) : (i8) -> ()
//      ^ error M7 ValueUnknown
// -----
// verify tg.irdl u.irdl
// values before operations
"t.zip"() : () -> ()
"t.nop"() {v = 256 : i8} : () -> ()
//             ^ error M16 IntRange
// -----
// verify tg.irdl u.irdl
// operations before the types of uses
%a = "t.src"() : () -> i8
"u.use"(%a) : (i16) -> ()
  "t.zip"() : () -> ()
//^ error M17 OpUnknown
// -----
// verify tg.irdl u.irdl
// names before operations
"t.zip"() : () -> ()
"u.use"(%x) : (i8) -> ()
//      ^ error M7 ValueUnknown
// -----
// verify tg.irdl u.irdl
// an unknown alias before one that is bad
#a = 256 : i8
"t.nop"() {v = #b} : () -> ()
//             ^ error M5 AliasUnknown
// -----
// verify tg.irdl u.irdl
// names by place: a use, then a definition
"u.use"(%y) : (i8) -> ()
//      ^ error M7 ValueUnknown
%x = "t.src"() : () -> i8
%x = "t.src"() : () -> i8
// -----
// verify tg.irdl u.irdl
// a definition, then a use
%x = "t.src"() : () -> i8
  %x = "t.src"() : () -> i8
//^ error M8 ValueRepeated
"u.use"(%y) : (i8) -> ()
// -----
// verify tg.irdl u.irdl
// an alias, then a value
!a = i8
  !a = i8
//^ error M6 AliasRepeated
"u.use"(%y) : (i8) -> ()
// -----
// verify tg.irdl u.irdl
// a mention in the types of an operation, and a use in its regions
"u.body"() ({
  "u.use"(%y) : (i8) -> ()
//        ^ error M7 ValueUnknown
}) : () -> !b
// -----
// verify tg.irdl u.irdl
// a successor, then a label
"u.body"() ({
  "u.to"()[^c] : () -> ()
//         ^ error M10 BlockUnknown
^a:
^a:
}) : () -> ()
// -----
// verify tg.irdl u.irdl
// a name, then the number behind it
%x = "t.src"() : () -> i8
  %x:0 = "t.src"() : () -> i8
//^ error M8 ValueRepeated
// -----
// verify tg.irdl u.irdl
// a name, then the type of an argument
"u.body"() ({
^a(%x: i8, %x: !b):
//         ^ error M8 ValueRepeated
}) : () -> ()
// -----
// verify tg.irdl u.irdl
// values by place: a number, then a key
"t.nop"() {a = 256 : i8, a} : () -> ()
//             ^ error M16 IntRange
// -----
// verify tg.irdl u.irdl
// a key, then a number
"t.nop"() {a, a = 256 : i8} : () -> ()
//            ^ error M13 KeyRepeated
// -----
// verify tg.irdl u.irdl
// an alias, then a type
#a = 256 : i8
//   ^ error M16 IntRange
%0 = "t.src"() : () -> !t.zip
// -----
// verify tg.irdl u.irdl
// an argument in a region, then the type behind it
"u.body"() ({
^a(%x: !t.zip):
//     ^ error M14 NameUnknown
}) : () -> vector<?xi8>
// -----
// verify tg.irdl u.irdl
// an unknown part before the whole, whose dimension is unknown
%0 = "t.src"() : () -> vector<?x!t.zip>
//                              ^ error M14 NameUnknown
// -----
// verify tg.irdl u.irdl
// of two parts of one value the first
%0 = "t.src"() : () -> tuple<!t.pr, !t.zip>
//                           ^ error M15 Parameters
// -----
// verify tg.irdl u.irdl
// of one operation: no definition, then lists that differ
%a = "t.zip"() : (i8) -> ()
//   ^ error M17 OpUnknown
// -----
// verify tg.irdl u.irdl
// lists that differ, then its place
  "t.ret"() : (i8) -> ()
//^ error M18 Arity
"t.nop"() : () -> ()
// -----
// verify tg.irdl u.irdl
// its place, then what it has
  "t.br"() : () -> ()
//^ error M21 NotLast
"t.nop"() : () -> ()
// -----
// verify tg.irdl u.irdl
// lists that differ, then what it has
  "u.number"() : (i8) -> ()
//^ error M18 Arity
// -----
// verify tg.irdl u.irdl
// operations by place: the outer one first
  "u.sized"() ({
//^ error M19 Unsatisfied
  "t.zip"() : () -> ()
}) : () -> ()
// -----
// verify tg.irdl u.irdl
// an inner one before the next
"u.body"() ({
  "u.number"() : () -> ()
//^ error M19 Unsatisfied
}) : () -> ()
"t.zip"() : () -> ()
// -----
// verify tg.irdl u.irdl
// whatever the rule
  "t.ret"() : () -> ()
//^ error M21 NotLast
"t.zip"() : () -> ()
// -----
// verify tg.irdl u.irdl
// uses by place: in a region before the next operation
%a = "t.src"() : () -> i8
"u.body"() ({
  "u.use"(%a) : (i16) -> ()
//        ^ error M20 UseType
}) : () -> ()
"u.use"(%a) : (i32) -> ()
// -----
// verify tg.irdl u.irdl
// an operation is judged by the types that stand with its uses
%a = "t.src"() : () -> i8
%b = "u.same"(%a, %a) : (i8, i16) -> i8
//   ^ error M19 Unsatisfied
