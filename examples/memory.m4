divert(-1)
A memory of WORDS bytes, of which m4 makes memory.chp:

  m4 -s memory.m4 | ./chpx link --line - > memory.chp

repeat(NAME, FROM, TO, TEXT) writes TEXT with each number from FROM up to TO in place of NAME.
between(N, TEXT) writes TEXT unless N is 0.

define(`WORDS', 16)
define(`BITS', 4)
define(`LAST', decr(WORDS))
define(`repeat', `ifelse(eval(`$2 > $3'), 1, , `pushdef(`$1', `$2')$4`'popdef(`$1')repeat(`$1', incr(`$2'), `$3', `$4')')')
define(`between', `ifelse(`$1', 0, , `$2')')
divert(0)dnl
// A memory of WORDS bytes: the highest bit on Q says whether to write, the others are the address; then a byte
// comes on W, or goes out on R. It is made from memory.m4.
in Q : incr(BITS);
in W : 8;
out R : 8;
var q : incr(BITS);
repeat(`i', 0, LAST, `var m`'i : 8;
')dnl
begin
  *[Q?q;
    [q[BITS] = 0 ->
      [repeat(`i', 0, LAST, `between(i, `
      [] ')q[decr(BITS):0] = i -> R!m`'i')]
    [] q[BITS] = 1 ->
      [repeat(`i', 0, LAST, `between(i, `
      [] ')q[decr(BITS):0] = i -> W?m`'i')]]]
end
