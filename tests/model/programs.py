"""The worked programs."""

SUM = """\
func main(; out) {
  call sum(0, rows; out);
}
func sum(lo, hi; d) {
  if hi - lo == 1 {
    read cell(lo, 0) as x { write d = x; }
  } else {
    let mid = (lo + hi) / 2;
    new a;
    new b;
    par { call sum(lo, mid; a); } { call sum(mid, hi; b); }
    read a as x, b as y { write d = x + y; }
  }
}
"""
DOUBLE = """\
func main(; out) {
  read cell(0, 0) as x {
    write out = x * 2;
  }
}
"""
HANDED_OUT = """\
func main(; out) {
  new p;
  read cell(0, 0) as x {
    new q;
    write q = x / 10;
    write p = q;
  }
  read p as r {
    read r as y { write out = y; }
  }
}
"""
READ_IN_READ = """\
func main(; out) {
  read cell(0, 0) as x {
    read cell(0, 0) as y { write out = x + y; }
  }
}
"""
REFERENCES = """\
func main(; out, other) {
  read cell(0, 0) as x {
    new q;
    write q = x;
    write out = q;
  }
  read cell(1, 0) as y { write other = y; }
}
"""
CALLS = """\
func main(; out) { call f(0; out); }
func f(n; d) {
  if n == 148 {
    let k = n;
    write d = k;
  } else { call f(n + 1; d); }
}
"""
BOTH_FAULT = """\
func main(; a, b) {
  par {
    write a = 1 / 0;
  } {
    write b = nil + 1;
  }
}
"""
NOTHING = "func main(;) { }\n"
RACES = """\
func main(; a, b) {
  par {
    write a = 1;
  } {
    read a as x { write b = x; }
  }
}
"""
BRANCHES = """\
func main(; a, b) {
  if 1 == 1 { write a = 1; } else { write b = 2; }
}
"""
BOTH_SIDES = """\
func main(; a) {
  par { write a = 1; } { write a = 2; }
}
"""
SECOND_COLUMN = """\
func main(; out) {
  read cell(0, 1) as x { write out = x; }
}
"""
ONE_MORE = """\
func main(; out) {
  read cell(0, 0) as x {
    write out = x + 1;
  }
}
"""
SALES = """\
func main(; total) {
  if rows == 0 {
    write total = 0;
  } else {
    call add(0, rows; total);
  }
}
func add(lo, hi; d) {
  if hi - lo == 1 {
    read cell(lo, 0) as place, cell(lo, 1) as amount {
      if place == "north" { write d = amount; } else { write d = 0; }
    }
  } else {
    let mid = (lo + hi) / 2;
    new a;
    new b;
    par { call add(lo, mid; a); } { call add(mid, hi; b); }
    read a as x, b as y { write d = x + y; }
  }
}
"""
PAIR = """\
func main(; out) {
  new a;
  write a = 5;
  write out = pair(a, cell(0, 0));
}
"""
QUOTIENTS = """\
func main(; a, b) {
  par {
    read cell(0, 0) as x { write a = 10 / x; }
  } {
    read cell(1, 0) as y { write b = 10 / y; }
  }
}
"""
DEEPEST_READ = """\
func main(; out) { call f(0; out); }
func f(n; d) {
  if n == 148 {
    read cell(0, 0) as x { write d = x; }
  } else { call f(n + 1; d); }
}
"""
PRESENT_ROWS = """\
func main(; out) {
  read rows() as n {
    if n == 0 { write out = 0; } else { call sum(0, n; out); }
  }
}
""" + SUM.partition("}\n")[2]
NESTED_PAIRS = """\
func main(; out) { call f(0; out); }
func f(n; d) {
  if n == 70 { write d = n; } else {
    new a;
    par { call f(n + 1; a); } { }
    read a as x { write d = x; }
  }
}
"""
# Those of them that the rule refuses.
REFUSED = (RACES, BRANCHES, BOTH_SIDES)
