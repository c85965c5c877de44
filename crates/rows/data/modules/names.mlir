// print generic tg.irdl u.irdl
// a name of an inner region may be defined outside behind that region, and means the inner one
"u.body"() ({
  "u.use"(%x) : (i32) -> ()
  %x = "t.src"() : () -> i32
}) : () -> ()
%x = "t.src"() : () -> i64
"u.use"(%x) : (i64) -> ()
// ---->
"u.body"() ({
  "u.use"(%0) : (i32) -> ()
  %0 = "t.src"() : () -> i32
}) : () -> ()
%1 = "t.src"() : () -> i64
"u.use"(%1) : (i64) -> ()
// -----
// print generic tg.irdl u.irdl
// regions side by side don't see one another, and both see what is defined behind them
"u.bodies"() ({
  %x = "t.src"() : () -> i8
  "u.row"(%x, %y) : (i8, i8) -> ()
}, {
  %x = "t.src"() : () -> i16
  "u.use"(%x) : (i16) -> ()
  "u.use"(%y) : (i8) -> ()
}) : () -> ()
%y = "t.src"() : () -> i8
// ---->
"u.bodies"() ({
  %0 = "t.src"() : () -> i8
  "u.row"(%0, %2) : (i8, i8) -> ()
}, {
  %1 = "t.src"() : () -> i16
  "u.use"(%1) : (i16) -> ()
  "u.use"(%2) : (i8) -> ()
}) : () -> ()
%2 = "t.src"() : () -> i8
// -----
// verify tg.irdl u.irdl
// a result is seen in its operation's regions, and an argument in the blocks before it
%r = "u.args"() ({
^a(%x: i8, %y: i8):
  "u.row"(%r, %x, %z) : (i8, i8, i8) -> ()
^b(%z: i8):
}) : () -> i8
// -----
// verify tg.irdl
%0 = "t.src"() : () -> !b
//                     ^ error M5 AliasUnknown
// -----
// verify tg.irdl
// an alias of a type is none of an attribute
!b = i32
"t.nop"() {v = #b} : () -> ()
//             ^ error M5 AliasUnknown
// -----
// verify
// an alias doesn't mention itself
#b = [#b]
//    ^ error M5 AliasUnknown
// -----
// verify
// nor one that is defined later
!a = tuple<!b>
//         ^ error M5 AliasUnknown
!b = i32
// -----
// verify u.irdl
// nor is there one in the type of an argument
"u.body"() ({
^a(%x: i8, %y: !b):
//             ^ error M5 AliasUnknown
}) : () -> ()
// -----
// verify
!a = i32
#a = 1
  !a = i32
//^ error M6 AliasRepeated
// -----
// verify u.irdl
"u.use"(%x) : (i8) -> ()
//      ^ error M7 ValueUnknown
// -----
// verify tg.irdl u.irdl
// the second of two uses
%x = "t.src"() : () -> i8
"u.row"(%x, %X) : (i8, i8) -> ()
//          ^ error M7 ValueUnknown
// -----
// verify tg.irdl u.irdl
// what an inner region defines isn't seen outside
"u.body"() ({
  %x = "t.src"() : () -> i8
}) : () -> ()
"u.use"(%x) : (i8) -> ()
//      ^ error M7 ValueUnknown
// -----
// verify tg.irdl u.irdl
// nor in a region beside it
"u.bodies"() ({
  %x = "t.src"() : () -> i8
}, {
  "u.use"(%x) : (i8) -> ()
//        ^ error M7 ValueUnknown
}) : () -> ()
// -----
// verify tg.irdl
%x = "t.src"() : () -> i8
  %x = "t.src"() : () -> i8
//^ error M8 ValueRepeated
// -----
// verify tg.irdl
%x, %x = "t.two"() : () -> (i8, i8)
//  ^ error M8 ValueRepeated
// -----
// verify tg.irdl u.irdl
// a region doesn't define again what stands before it
%x = "t.src"() : () -> i8
"u.body"() ({
  %x = "t.src"() : () -> i8
//^ error M8 ValueRepeated
}) : () -> ()
// -----
// verify tg.irdl u.irdl
// nor a result of its own operation
%r = "u.args"() ({
^a(%x: i8, %r: i8):
//         ^ error M8 ValueRepeated
}) : () -> i8
// -----
// verify u.irdl
// the blocks of a region share its names
"u.body"() ({
^a(%x: i8):
^b(%x: i8):
// ^ error M8 ValueRepeated
}) : () -> ()
// -----
// verify tg.irdl
// the results of a pack are counted from 0
%p:2 = "t.two"() : () -> (i32, i64)
"t.pair"(%p, %p#2) {operandSegmentSizes = array<i32: 1, 1>} : (i32, i64) -> ()
//             ^ error M9 ResultNumber
// -----
// verify tg.irdl u.irdl
// a single result is a pack of one
%x = "t.src"() : () -> i8
"u.row"(%x#0, %x#1) : (i8, i8) -> ()
//              ^ error M9 ResultNumber
// -----
// verify u.irdl
// and so is an argument
"u.body"() ({
^a(%x: i8):
  "u.row"(%x#0, %x#1) : (i8, i8) -> ()
//                ^ error M9 ResultNumber
}) : () -> ()
// -----
// verify u.irdl
// uses of a pack with a wrong size aren't judged
"u.use"(%p#5) : (i8) -> ()
%p:0 = "u.some"() : () -> ()
// ^ error M9 ResultNumber
// -----
// verify u.irdl
// a size is written in decimal
%p:0x2 = "u.some"() : () -> (i8, i8)
// ^ error M9 ResultNumber
// -----
// verify u.irdl
// the greatest size, and one more
%p:16777217 = "u.some"() : () -> (i8, i8)
// ^ error M9 ResultNumber
// -----
// verify u.irdl
// a pack of the greatest size isn't refused for it
%p:16777216 = "u.some"() : () -> (i8, i8)
//            ^ error M18 Arity
// -----
// verify u.irdl
// a number of many digits
%p:2 = "u.some"() : () -> (i8, i8)
"u.use"(%p#18446744073709551616) : (i8) -> ()
//        ^ error M9 ResultNumber
// -----
// verify tg.irdl u.irdl
"u.body"() ({
  "t.br"()[^b] : () -> ()
//         ^ error M10 BlockUnknown
}) : () -> ()
// -----
// verify tg.irdl
// at top level there is no block
"t.br"()[^b] : () -> ()
//       ^ error M10 BlockUnknown
// -----
// verify u.irdl
// a label of the region outside is none of the inner one
"u.body"() ({
^a:
^b:
  "u.body"() ({
    "u.to"()[^b] : () -> ()
//           ^ error M10 BlockUnknown
  }) : () -> ()
}) : () -> ()
// -----
// verify u.irdl
// nor the other way round
"u.body"() ({
  "u.to"()[^b] : () -> ()
//         ^ error M10 BlockUnknown
  "u.body"() ({
  ^a:
  ^b:
  }) : () -> ()
}) : () -> ()
// -----
// verify u.irdl
"u.body"() ({
^a:
^b:
  ^b:
//^ error M11 BlockRepeated
}) : () -> ()
// -----
// print generic u.irdl
// regions side by side, and in one another, have labels of their own
"u.bodies"() ({
^a:
  "u.body"() ({
  ^b:
  ^a:
    "u.to"()[^a] : () -> ()
  }) : () -> ()
^b:
  "u.to"()[^b] : () -> ()
}, {
^b:
^a:
  "u.to"()[^a] : () -> ()
}) : () -> ()
// ---->
"u.bodies"() ({
  "u.body"() ({
  ^bb0:
  ^bb1:
    "u.to"() [^bb1] : () -> ()
  }) : () -> ()
^bb1:
  "u.to"() [^bb1] : () -> ()
}, {
^bb0:
^bb1:
  "u.to"() [^bb1] : () -> ()
}) : () -> ()
// -----
// verify tg.irdl u.irdl
"u.body"() ({
^a:
  "t.br"()[^a] : () -> ()
//         ^ error M12 EntryTarget
}) : () -> ()
// -----
// verify tg.irdl u.irdl
// behind operations without a label the first label is no entry
"u.body"() ({
  "t.nop"() : () -> ()
^a:
  "t.br"()[^a] : () -> ()
}) : () -> ()
// -----
// verify u.irdl
// from another block too
"u.body"() ({
^a:
^b:
  "u.fork"()[^b, ^a] : () -> ()
//               ^ error M12 EntryTarget
}) : () -> ()
