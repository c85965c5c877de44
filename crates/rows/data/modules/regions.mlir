// print generic tg.irdl
"builtin.module"() ({ "t.nop"() <{h = 0xFF : i16}> {a = true} : () -> () }) {k, sym_name = "m"} : () -> ()
// ---->
"builtin.module"() ({
  "t.nop"() {a = true, h = 255 : i16} : () -> ()
}) {k, sym_name = "m"} : () -> ()
// -----
// print generic u.irdl
// a region without blocks
"u.body"() ({}) : () -> ()
// ---->
"u.body"() ({
}) : () -> ()
// -----
// print generic u.irdl
// a region whose one block is empty keeps its label
"u.body"() ({ ^a: }) : () -> ()
// ---->
"u.body"() ({
^bb0:
}) : () -> ()
// -----
// print generic u.irdl
// and one whose block has an argument
"u.body"() ({^a(%x : i8):}) : () -> ()
// ---->
"u.body"() ({
^bb0(%0: i8):
}) : () -> ()
// -----
// print generic tg.irdl u.irdl
// parentheses without arguments aren't printed, nor is the label of the entry block
"u.body"() ({
^a():
  "t.nop"() : () -> ()
^b():
}) : () -> ()
// ---->
"u.body"() ({
  "t.nop"() : () -> ()
^bb1:
}) : () -> ()
// -----
// print generic tg.irdl u.irdl
// blocks count from 0 in their region
"u.body"() ({
^start:
  "t.br"()[^end] : () -> ()
^mid(%a: i8, %b: i16):
  "u.fork"()[^end, ^mid] : () -> ()
^end:
}) : () -> ()
// ---->
"u.body"() ({
  "t.br"() [^bb2] : () -> ()
^bb1(%0: i8, %1: i16):
  "u.fork"() [^bb2, ^bb1] : () -> ()
^bb2:
}) : () -> ()
// -----
// print generic tg.irdl u.irdl
// values count over the module: results, then arguments, then operations
%r = "u.args"() ({
^a(%x: i8, %y: i8):
  "u.use"(%y) : (i8) -> ()
  "u.body"() ({
    "u.use"(%r) : (i8) -> ()
    %z = "t.src"() : () -> i16
  ^b(%w: i32):
    "u.use"(%w) : (i32) -> ()
  }) : () -> ()
}) : () -> i8
%q = "t.src"() : () -> i1
// ---->
%0 = "u.args"() ({
^bb0(%1: i8, %2: i8):
  "u.use"(%2) : (i8) -> ()
  "u.body"() ({
    "u.use"(%0) : (i8) -> ()
    %3 = "t.src"() : () -> i16
  ^bb1(%4: i32):
    "u.use"(%4) : (i32) -> ()
  }) : () -> ()
}) : () -> i8
%5 = "t.src"() : () -> i1
// -----
// print generic tg.irdl u.irdl
// two regions, and attributes behind them
"u.bodies"() ({ "t.nop"() : () -> () }, {}) {b, a} : () -> ()
// ---->
"u.bodies"() ({
  "t.nop"() : () -> ()
}, {
}) {a, b} : () -> ()
// -----
// print generic tg.irdl u.irdl
// on the line of a label no space stands before a colon
"u.body"() ({ ^a(%x: !t.pr<1 : i8, tensor<4xi8>>, %y: (i8) -> i8): }) : () -> ()
// ---->
"u.body"() ({
^bb0(%0: !t.pr<1: i8, tensor<4xi8>>, %1: (i8) -> (i8)):
}) : () -> ()
// -----
// print generic tg.irdl
// what is printed is printed as it stands
"t.box"() ({
  %0 = "t.src"() : () -> i32
  "t.ret"(%0) : (i32) -> ()
}) {flag, k = [1 : i8, -1 : i64]} : () -> ()
%1 = "t.src"() : () -> (() -> (i8, i16))
// -----
// print generic tg.irdl
"t.box"() ({
  "t.br"() [^bb1] : () -> ()
^bb1(%0: i32):
  "t.ret"(%0) : (i32) -> ()
}) {flag} : () -> ()
// -----
// verify u.irdl
// declared arguments: two of one type
%a = "u.args"() ({ ^a(%x: i8, %y: i8): }) : () -> i8
%b = "u.args"() ({ ^a(%x: i8, %y: i16): }) : () -> i8
//   ^ error M19 Unsatisfied
// -----
// verify u.irdl
// one argument of two
%a = "u.args"() ({ ^a(%x: i8): }) : () -> i8
//   ^ error M19 Unsatisfied
// -----
// verify u.irdl
// arguments of another type than the result
%a = "u.args"() ({ ^a(%x: i8, %y: i8): }) : () -> i16
//   ^ error M19 Unsatisfied
// -----
// verify tg.irdl u.irdl
// a block without arguments
%a = "u.args"() ({ "t.nop"() : () -> () }) : () -> i8
//   ^ error M19 Unsatisfied
// -----
// verify u.irdl
// no block at all
%a = "u.args"() ({}) : () -> i8
//   ^ error M19 Unsatisfied
// -----
// verify tg.irdl u.irdl
// where no argument is declared, there may be no block, or blocks of which the first has none
"u.closed"() ({}) : () -> ()
"u.closed"() ({ "t.nop"() : () -> () ^b(%x: i8): }) : () -> ()
  "u.closed"() ({ ^a(%x: i8): }) : () -> ()
//^ error M19 Unsatisfied
// -----
// verify u.irdl
// a size counts blocks
"u.sized"() ({ ^a: ^b: }) : () -> ()
  "u.sized"() ({ ^a: }) : () -> ()
//^ error M19 Unsatisfied
// -----
// verify u.irdl
  "u.sized"() ({}) : () -> ()
//^ error M19 Unsatisfied
// -----
// verify tg.irdl u.irdl
// a terminator stands last in its block
"u.body"() ({
  "t.ret"() : () -> ()
^b:
  "t.ret"() : () -> ()
//^ error M21 NotLast
  "t.nop"() : () -> ()
}) : () -> ()
// -----
// verify u.irdl
// an argument has its type
"u.body"() ({
^a(%x: i8):
  "u.use"(%x) : (i16) -> ()
//        ^ error M20 UseType
}) : () -> ()
// -----
// verify u.irdl
// 64 regions in one another
"u.body"() ({ "u.body"() ({ "u.body"() ({ "u.body"() ({
"u.body"() ({ "u.body"() ({ "u.body"() ({ "u.body"() ({
"u.body"() ({ "u.body"() ({ "u.body"() ({ "u.body"() ({
"u.body"() ({ "u.body"() ({ "u.body"() ({ "u.body"() ({
"u.body"() ({ "u.body"() ({ "u.body"() ({ "u.body"() ({
"u.body"() ({ "u.body"() ({ "u.body"() ({ "u.body"() ({
"u.body"() ({ "u.body"() ({ "u.body"() ({ "u.body"() ({
"u.body"() ({ "u.body"() ({ "u.body"() ({ "u.body"() ({
"u.body"() ({ "u.body"() ({ "u.body"() ({ "u.body"() ({
"u.body"() ({ "u.body"() ({ "u.body"() ({ "u.body"() ({
"u.body"() ({ "u.body"() ({ "u.body"() ({ "u.body"() ({
"u.body"() ({ "u.body"() ({ "u.body"() ({ "u.body"() ({
"u.body"() ({ "u.body"() ({ "u.body"() ({ "u.body"() ({
"u.body"() ({ "u.body"() ({ "u.body"() ({ "u.body"() ({
"u.body"() ({ "u.body"() ({ "u.body"() ({ "u.body"() ({
"u.body"() ({ "u.body"() ({ "u.body"() ({ "u.body"() ({
}) : () -> () }) : () -> () }) : () -> () }) : () -> ()
}) : () -> () }) : () -> () }) : () -> () }) : () -> ()
}) : () -> () }) : () -> () }) : () -> () }) : () -> ()
}) : () -> () }) : () -> () }) : () -> () }) : () -> ()
}) : () -> () }) : () -> () }) : () -> () }) : () -> ()
}) : () -> () }) : () -> () }) : () -> () }) : () -> ()
}) : () -> () }) : () -> () }) : () -> () }) : () -> ()
}) : () -> () }) : () -> () }) : () -> () }) : () -> ()
}) : () -> () }) : () -> () }) : () -> () }) : () -> ()
}) : () -> () }) : () -> () }) : () -> () }) : () -> ()
}) : () -> () }) : () -> () }) : () -> () }) : () -> ()
}) : () -> () }) : () -> () }) : () -> () }) : () -> ()
}) : () -> () }) : () -> () }) : () -> () }) : () -> ()
}) : () -> () }) : () -> () }) : () -> () }) : () -> ()
}) : () -> () }) : () -> () }) : () -> () }) : () -> ()
}) : () -> () }) : () -> () }) : () -> () }) : () -> ()
// -----
// verify u.irdl
// 65 of them: a region begins too deep at its brace
"u.body"() ({ "u.body"() ({ "u.body"() ({ "u.body"() ({
"u.body"() ({ "u.body"() ({ "u.body"() ({ "u.body"() ({
"u.body"() ({ "u.body"() ({ "u.body"() ({ "u.body"() ({
"u.body"() ({ "u.body"() ({ "u.body"() ({ "u.body"() ({
"u.body"() ({ "u.body"() ({ "u.body"() ({ "u.body"() ({
"u.body"() ({ "u.body"() ({ "u.body"() ({ "u.body"() ({
"u.body"() ({ "u.body"() ({ "u.body"() ({ "u.body"() ({
"u.body"() ({ "u.body"() ({ "u.body"() ({ "u.body"() ({
"u.body"() ({ "u.body"() ({ "u.body"() ({ "u.body"() ({
"u.body"() ({ "u.body"() ({ "u.body"() ({ "u.body"() ({
"u.body"() ({ "u.body"() ({ "u.body"() ({ "u.body"() ({
"u.body"() ({ "u.body"() ({ "u.body"() ({ "u.body"() ({
"u.body"() ({ "u.body"() ({ "u.body"() ({ "u.body"() ({
"u.body"() ({ "u.body"() ({ "u.body"() ({ "u.body"() ({
"u.body"() ({ "u.body"() ({ "u.body"() ({ "u.body"() ({
"u.body"() ({ "u.body"() ({ "u.body"() ({ "u.body"() ({
"u.body"() ({}) : () -> ()
//          ^ error M4 Nesting
}) : () -> () }) : () -> () }) : () -> () }) : () -> ()
}) : () -> () }) : () -> () }) : () -> () }) : () -> ()
}) : () -> () }) : () -> () }) : () -> () }) : () -> ()
}) : () -> () }) : () -> () }) : () -> () }) : () -> ()
}) : () -> () }) : () -> () }) : () -> () }) : () -> ()
}) : () -> () }) : () -> () }) : () -> () }) : () -> ()
}) : () -> () }) : () -> () }) : () -> () }) : () -> ()
}) : () -> () }) : () -> () }) : () -> () }) : () -> ()
}) : () -> () }) : () -> () }) : () -> () }) : () -> ()
}) : () -> () }) : () -> () }) : () -> () }) : () -> ()
}) : () -> () }) : () -> () }) : () -> () }) : () -> ()
}) : () -> () }) : () -> () }) : () -> () }) : () -> ()
}) : () -> () }) : () -> () }) : () -> () }) : () -> ()
}) : () -> () }) : () -> () }) : () -> () }) : () -> ()
}) : () -> () }) : () -> () }) : () -> () }) : () -> ()
}) : () -> () }) : () -> () }) : () -> () }) : () -> ()
// -----
// verify tg.irdl u.irdl
// values count from 1 in whatever region they stand
"u.body"() ({ "u.body"() ({ "u.body"() ({ "u.body"() ({
"u.body"() ({ "u.body"() ({ "u.body"() ({ "u.body"() ({
"u.body"() ({ "u.body"() ({ "u.body"() ({ "u.body"() ({
"u.body"() ({ "u.body"() ({ "u.body"() ({ "u.body"() ({
"u.body"() ({ "u.body"() ({ "u.body"() ({ "u.body"() ({
"u.body"() ({ "u.body"() ({ "u.body"() ({ "u.body"() ({
"u.body"() ({ "u.body"() ({ "u.body"() ({ "u.body"() ({
"u.body"() ({ "u.body"() ({ "u.body"() ({ "u.body"() ({
"u.body"() ({ "u.body"() ({ "u.body"() ({ "u.body"() ({
"u.body"() ({ "u.body"() ({ "u.body"() ({ "u.body"() ({
"u.body"() ({ "u.body"() ({ "u.body"() ({ "u.body"() ({
"u.body"() ({ "u.body"() ({ "u.body"() ({ "u.body"() ({
"u.body"() ({ "u.body"() ({ "u.body"() ({ "u.body"() ({
"u.body"() ({ "u.body"() ({ "u.body"() ({ "u.body"() ({
"u.body"() ({ "u.body"() ({ "u.body"() ({ "u.body"() ({
"u.body"() ({ "u.body"() ({ "u.body"() ({ "u.body"() ({
"t.nop"() {v = [[[[[[[[[[[[[[[[[[[[[[[[[[[[[[[[[[[[[[[[[[[[[[[[[[[[[[[[[[[[[[[[]]]]]]]]]]]]]]]]]]]]]]]]]]]]]]]]]]]]]]]]]]]]]]]]]]]]]]]]]]]]]]]]} : () -> ()
}) : () -> () }) : () -> () }) : () -> () }) : () -> ()
}) : () -> () }) : () -> () }) : () -> () }) : () -> ()
}) : () -> () }) : () -> () }) : () -> () }) : () -> ()
}) : () -> () }) : () -> () }) : () -> () }) : () -> ()
}) : () -> () }) : () -> () }) : () -> () }) : () -> ()
}) : () -> () }) : () -> () }) : () -> () }) : () -> ()
}) : () -> () }) : () -> () }) : () -> () }) : () -> ()
}) : () -> () }) : () -> () }) : () -> () }) : () -> ()
}) : () -> () }) : () -> () }) : () -> () }) : () -> ()
}) : () -> () }) : () -> () }) : () -> () }) : () -> ()
}) : () -> () }) : () -> () }) : () -> () }) : () -> ()
}) : () -> () }) : () -> () }) : () -> () }) : () -> ()
}) : () -> () }) : () -> () }) : () -> () }) : () -> ()
}) : () -> () }) : () -> () }) : () -> () }) : () -> ()
}) : () -> () }) : () -> () }) : () -> () }) : () -> ()
}) : () -> () }) : () -> () }) : () -> () }) : () -> ()
