// print generic tg.irdl
// keys ascend by their bytes, a unit value is left out, and strings show what can be shown
"t.nop"() {z, a = true, m = {y = 1, b}, "not a word" = 0x1F : i8, s = "a\"b\\c\n\7f"} : () -> ()
// ---->
"t.nop"() {a = true, m = {b, y = 1 : i64}, "not a word" = 31 : i8, s = "a\22b\\c\0A\7F", z} : () -> ()
// -----
// print generic tg.irdl
// numbers are what is kept of them
"t.nop"() {a = 1, b = -0, c = 128 : i8, d = 255 : ui8, e = -128 : si8, f = 5 : index} : () -> ()
"t.nop"() {a = 1 : i1, b = 0 : i1, c = -1 : i1, d = 18446744073709551615 : i64} : () -> ()
"t.nop"() {a = 255 : i8, b = 254 : i8, c = 0xFF : i16, d = 007} : () -> ()
// ---->
"t.nop"() {a = 1 : i64, b = 0 : i64, c = -128 : i8, d = 255 : ui8, e = -128 : si8, f = 5 : index} : () -> ()
"t.nop"() {a = true, b = false, c = true, d = -1 : i64} : () -> ()
"t.nop"() {a = -1 : i8, b = -2 : i8, c = 255 : i16, d = 7 : i64} : () -> ()
// -----
// print generic tg.irdl u.irdl
// an attribute may be a type
"t.nop"() {a = i32, b = (i8) -> i8, c = tuple<i8, f32>, d = vector<2x3xf32>} : () -> ()
"t.nop"() {a = tensor<?x4xi1>, b = memref<index>, c = complex<f64>, d = none, e = tuple<>} : () -> ()
"t.nop"() {a = !u.t<>, b = !t.pr<i8, 1>, c = !u.small<i8>, d = #u.k<#u.k<unit>>} : () -> ()
// ---->
"t.nop"() {a = i32, b = (i8) -> (i8), c = tuple<i8, f32>, d = vector<2x3xf32>} : () -> ()
"t.nop"() {a = tensor<?x4xi1>, b = memref<index>, c = complex<f64>, d = none, e = tuple<>} : () -> ()
"t.nop"() {a = !u.t, b = !t.pr<i8, 1 : i64>, c = !u.small<i8>, d = #u.k<#u.k<unit>>} : () -> ()
// -----
// print generic tg.irdl
// arrays, dense arrays, symbols and dictionaries
"t.nop"() {a = [], b = [1 : i8, "x", [unit]], c = array<i32>, d = array<i8: 255, -128, 0>} : () -> ()
"t.nop"() {a = array<i1: true, false>, b = @a::@"b c"::@"d", c = @e-f, d = unit, e = {}} : () -> ()
// ---->
"t.nop"() {a = [], b = [1 : i8, "x", [unit]], c = array<i32>, d = array<i8: -1, -128, 0>} : () -> ()
"t.nop"() {a = array<i1: true, false>, b = @a::@"b c"::@d, c = @"e-f", d, e = {}} : () -> ()
// -----
// print generic tg.irdl
// properties are attributes, and an empty dictionary isn't printed
"t.nop"() <{h = 0xFF : i16}> {a = true} : () -> ()
"t.nop"() <{}> {} : () -> ()
// ---->
"t.nop"() {a = true, h = 255 : i16} : () -> ()
"t.nop"() : () -> ()
// -----
// print generic tg.irdl
// no alias is printed; one of a type and one of an attribute may share a name
!p = !t.pr<i32, i64>
#p = 7 : i8
#t = !p
!i = i16
%0 = "t.src"() {a = #p, b = #t, c = [#p, !p], d = 9 : !i} : () -> !p
// ---->
%0 = "t.src"() {a = 7 : i8, b = !t.pr<i32, i64>, c = [7 : i8, !t.pr<i32, i64>], d = 9 : i16} : () -> !t.pr<i32, i64>
// -----
// verify tg.irdl
// 64 arrays in one another
"t.nop"() {v = [[[[[[[[[[[[[[[[[[[[[[[[[[[[[[[[[[[[[[[[[[[[[[[[[[[[[[[[[[[[[[[[]]]]]]]]]]]]]]]]]]]]]]]]]]]]]]]]]]]]]]]]]]]]]]]]]]]]]]]]]]]]]]]]} : () -> ()
// -----
// verify tg.irdl
// 65 of them
"t.nop"() {v = [[[[[[[[[[[[[[[[[[[[[[[[[[[[[[[[[[[[[[[[[[[[[[[[[[[[[[[[[[[[[[[[[]]]]]]]]]]]]]]]]]]]]]]]]]]]]]]]]]]]]]]]]]]]]]]]]]]]]]]]]]]]]]]]]]} : () -> ()
//                                                                             ^ error M4 Nesting
// -----
// verify tg.irdl
// a key at nesting 65, where an entry without a value would have one
"t.nop"() {v = [[[[[[[[[[[[[[[[[[[[[[[[[[[[[[[[[[[[[[[[[[[[[[[[[[[[[[[[[[[[[[[{}]]]]]]]]]]]]]]]]]]]]]]]]]]]]]]]]]]]]]]]]]]]]]]]]]]]]]]]]]]]]]]]} : () -> ()
"t.nop"() {v = [[[[[[[[[[[[[[[[[[[[[[[[[[[[[[[[[[[[[[[[[[[[[[[[[[[[[[[[[[[[[[[{a = 1}]]]]]]]]]]]]]]]]]]]]]]]]]]]]]]]]]]]]]]]]]]]]]]]]]]]]]]]]]]]]]]]} : () -> ()
//                                                                             ^ error M4 Nesting
// -----
// verify tg.irdl
// an alias counts with its value: 60 arrays behind four are 64
#a = [[[[[[[[[[[[[[[[[[[[[[[[[[[[[[[[[[[[[[[[[[[[[[[[[[[[[[[[[[[[]]]]]]]]]]]]]]]]]]]]]]]]]]]]]]]]]]]]]]]]]]]]]]]]]]]]]]]]]]]]
"t.nop"() {v = [[[[#a]]]]} : () -> ()
// -----
// verify tg.irdl
// behind five they are 65
#a = [[[[[[[[[[[[[[[[[[[[[[[[[[[[[[[[[[[[[[[[[[[[[[[[[[[[[[[[[[[[]]]]]]]]]]]]]]]]]]]]]]]]]]]]]]]]]]]]]]]]]]]]]]]]]]]]]]]]]]]]
"t.nop"() {v = [[[[[#a]]]]]} : () -> ()
//                  ^ error M4 Nesting
// -----
// verify tg.irdl
"t.nop"() {a, a} : () -> ()
//            ^ error M13 KeyRepeated
// -----
// verify tg.irdl
// a key is its bytes
"t.nop"() {a = 1, "a" = 1} : () -> ()
//                ^ error M13 KeyRepeated
// -----
// verify tg.irdl
// properties and the dictionary are one
"t.nop"() <{a}> {b, a} : () -> ()
//                  ^ error M13 KeyRepeated
// -----
// verify tg.irdl
// each dictionary has keys of its own
"t.nop"() {a = {a}, b = {a, a}} : () -> ()
//                          ^ error M13 KeyRepeated
// -----
// verify
// an alias that nothing mentions is judged
#d = {a = 1, a = 2}
//           ^ error M13 KeyRepeated
// -----
// verify tg.irdl
%0 = "t.src"() : () -> !t.zip
//                     ^ error M14 NameUnknown
// -----
// verify tg.irdl
// a type is no attribute
"t.nop"() {v = #t.pr<i8, i8>} : () -> ()
//             ^ error M14 NameUnknown
// -----
// verify u.irdl tg.irdl
// an attribute is no type
"t.nop"() {v = !u.k<1>} : () -> ()
//             ^ error M14 NameUnknown
// -----
// verify tg.irdl
// the name of an operation is none of a type
"t.nop"() {v = !t.nop} : () -> ()
//             ^ error M14 NameUnknown
// -----
// verify tg.irdl
%0 = "t.src"() : () -> tuple<i8, !x.y>
//                               ^ error M14 NameUnknown
// -----
// verify
!a = !t.zip
//   ^ error M14 NameUnknown
// -----
// verify tg.irdl
// a part is judged before the whole, which has too few
%0 = "t.src"() : () -> !t.pr<!t.zip>
//                           ^ error M14 NameUnknown
// -----
// verify tg.irdl
%0 = "t.src"() : () -> !t.pr<i32>
//                     ^ error M15 Parameters
// -----
// verify tg.irdl
%0 = "t.src"() : () -> !t.pr
//                     ^ error M15 Parameters
// -----
// verify tg.irdl u.irdl
%0 = "t.src"() : () -> !u.t<i8>
//                     ^ error M15 Parameters
// -----
// verify tg.irdl u.irdl
// no choice fits
%0 = "t.src"() : () -> !u.small<i32>
//                     ^ error M15 Parameters
// -----
// verify tg.irdl u.irdl
// two parameters of one variable
%0 = "t.src"() : () -> !u.twice<!u.small<i8>, !u.small<i8>>
%1 = "t.src"() : () -> !u.twice<i8, i16>
//                     ^ error M15 Parameters
// -----
// verify tg.irdl
// a vector has no unknown dimension
%0 = "t.src"() : () -> tensor<?xi8>
%1 = "t.src"() : () -> tuple<vector<?xi8>>
//                           ^ error M15 Parameters
// -----
// verify tg.irdl
// the greatest dimension, and one more
%0 = "t.src"() : () -> memref<9223372036854775807xi8>
%1 = "t.src"() : () -> memref<9223372036854775808xi8>
//                     ^ error M15 Parameters
// -----
// verify tg.irdl
"t.nop"() {v = 255 : i8} : () -> ()
"t.nop"() {v = 256 : i8} : () -> ()
//             ^ error M16 IntRange
// -----
// verify tg.irdl
// the sign is the number's first token
"t.nop"() {v = -128 : i8} : () -> ()
"t.nop"() {v = -129 : i8} : () -> ()
//             ^ error M16 IntRange
// -----
// verify tg.irdl
"t.nop"() {v = -1 : ui8} : () -> ()
//             ^ error M16 IntRange
// -----
// verify tg.irdl
"t.nop"() {v = 127 : si8} : () -> ()
"t.nop"() {v = 128 : si8} : () -> ()
//             ^ error M16 IntRange
// -----
// verify tg.irdl
"t.nop"() {v = 9223372036854775808 : index} : () -> ()
//             ^ error M16 IntRange
// -----
// verify tg.irdl
// a number without a type has 64 bits
"t.nop"() {v = 18446744073709551615} : () -> ()
"t.nop"() {v = 18446744073709551616} : () -> ()
//             ^ error M16 IntRange
// -----
// verify tg.irdl
// numbers have no float type
"t.nop"() {v = 1 : f32} : () -> ()
//             ^ error M16 IntRange
// -----
// verify tg.irdl
// nor more than 64 bits
"t.nop"() {v = 0 : i64} : () -> ()
"t.nop"() {v = 0 : i65} : () -> ()
//             ^ error M16 IntRange
// -----
// verify tg.irdl
// the same by way of an alias
!f = f32
"t.nop"() {v = [1 : !f]} : () -> ()
//              ^ error M16 IntRange
// -----
// verify tg.irdl
"t.nop"() {v = array<i8: -128, 256>} : () -> ()
//                             ^ error M16 IntRange
// -----
// verify tg.irdl
// words are items of one bit alone, and numbers none
"t.nop"() {v = array<i1: true, 0>} : () -> ()
//                             ^ error M16 IntRange
// -----
// verify tg.irdl
"t.nop"() {v = array<i8: true>} : () -> ()
//                       ^ error M16 IntRange
