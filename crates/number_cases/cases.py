"""Writes the cases of this crate to `stdin`: run it in the crate's folder. It shares nothing with the library: numbers are pairs of Python fractions."""
import random
from fractions import Fraction as F
from math import gcd
random.seed(20261117)
FS, RS = 2147483647, 262143

def low(p, q, m):
    if m < 0: p, q, m = -p, -q, -m
    g = gcd(gcd(abs(p), abs(q)), m)
    return p // g, q // g, m // g

class Num:
    "a + b√D with fractions a and b"
    def __init__(s, a, b, D): s.a, s.b, s.D = F(a), F(b), D
    def __add__(s, o): return Num(s.a + o.a, s.b + o.b, s.D)
    def __sub__(s, o): return Num(s.a - o.a, s.b - o.b, s.D)
    def __mul__(s, o): return Num(s.a * o.a + s.D * s.b * o.b, s.a * o.b + s.b * o.a, s.D)
    def inv(s):
        n = s.a * s.a - s.D * s.b * s.b
        return Num(s.a / n, -s.b / n, s.D)
    def zero(s): return s.a == 0 and s.b == 0
    def parts(s):
        m = s.a.denominator * s.b.denominator // gcd(s.a.denominator, s.b.denominator)
        return low(int(s.a * m), int(s.b * m), m)
    def positive(s):
        # an independent test: compare with a rational bound of the root
        if s.b == 0: return s.a > 0
        from decimal import Decimal, getcontext
        getcontext().prec = 60
        v = Decimal(s.a.numerator) / Decimal(s.a.denominator) + Decimal(s.b.numerator) / Decimal(s.b.denominator) * Decimal(s.D).sqrt()
        return v > 0

def text(p, q, m, D):
    if q == 0: return str(p) if m == 1 else f"{p}/{m}"
    return f"({p}{q:+d}√{D})/{m}"

def shown(x):
    p, q, m = x.parts()
    size = RS if x.D else FS
    if max(abs(p), abs(q), m) > size: return "refused-1"
    return text(p, q, m, x.D)

def rnd(size):
    return random.choice([random.randint(-9, 9), random.randint(-999, 999), random.randint(-size, size), random.choice([size, -size, size - 1, 0, 1, -1])])

def number(D):
    size = RS if D else FS
    while True:
        p, q, m = rnd(size), (rnd(size) if D else 0), abs(rnd(size)) or 1
        if random.random() < 0.4: m = random.choice([1, 2, 3, 4])
        p, q, m = low(p, q, m)
        if max(abs(p), abs(q), m) <= size: return Num(F(p, m), F(q, m), D)

lines = []
def case(kind, D, op, x, y):
    tx, ty = text(*x.parts(), D), text(*y.parts(), D)
    if op == "over": ans = "refused-2" if y.zero() else shown(x * y.inv())
    elif op == "positive": ans = "yes" if x.positive() else "no"
    elif op == "same": ans = shown(x)
    else: ans = shown({"plus": x + y, "minus": x - y, "times": x * y}[op])
    lines.append(f"{kind} {op} {tx} {ty} {ans}")

W = lambda n, D=0: Num(n, 0, D)
case("fraction", 0, "times", W(65535), W(32768))
case("fraction", 0, "times", W(65536), W(32768))
g = Num(F(1, 2), F(1, 2), 5)
case("root5", 5, "times", g, g)
case("root5", 5, "positive", Num(F(3, 2), F(-1, 2), 5), W(0, 5))
case("root5", 5, "positive", Num(F(1, 2), F(-1, 2), 5), W(0, 5))
case("root5", 5, "over", W(1, 5), g)
case("fraction", 0, "over", W(0), W(0))
case("root3", 3, "over", W(1, 3), W(0, 3))
for kind, D in [("fraction", 0), ("root3", 3), ("root5", 5)]:
    for op, n in [("plus", 25), ("minus", 25), ("times", 25), ("over", 25), ("positive", 15), ("same", 5)]:
        for _ in range(n):
            x, y = number(D), number(D)
            if random.random() < 0.25:   # small ones, so that many results are held
                size = 30
                x = Num(F(random.randint(-size, size), random.randint(1, 9)), F(random.randint(-size, size), random.randint(1, 9)) if D else 0, D)
                y = Num(F(random.randint(-size, size), random.randint(1, 9)), F(random.randint(-size, size), random.randint(1, 9)) if D else 0, D)
            case(kind, D, op, x, y)
# spellings that are not in lowest terms, not held, or none
for l in ["fraction same 2/4 0 1/2", "fraction same -10/5 0 -2", "fraction same 007/14 0 1/2", "fraction same 2147483647 0 2147483647", "fraction same 2147483648 0 not-held",
          "fraction same 4294967296/2 0 not-held", "fraction same 4294967294/2 0 2147483647", "fraction same 1/0 0 no-number", "fraction same 1/-2 0 no-number", "fraction same +1 0 no-number",
          "fraction same (1+1√5)/2 0 no-number", "fraction same 1000000000000000000 0 no-number", "fraction same 1/2/3 0 no-number", "fraction same - 0 no-number", "fraction same -0 0 0",
          "root5 same (2+2√5)/4 0 (1+1√5)/2", "root5 same (1+0√5)/2 0 1/2", "root5 same (1-1√5)/2 0 (1-1√5)/2", "root5 same (1+1√3)/2 0 no-number", "root3 same (1+1√3)/1 0 (1+1√3)/1",
          "root5 same (1+√5)/2 0 no-number", "root5 same (1+1√5) 0 no-number", "root5 same 262144 0 not-held", "root5 same 262143 0 262143", "root5 same (-1-262143√5)/262142 0 (-1-262143√5)/262142",
          "root5 same (1+1√5)/0 0 no-number"]:
    lines.append(l)
open("stdin", "w").write("\n".join(lines) + "\n")
open("stdout", "w").write(f"{len(lines)} right, 0 wrong\n")
from collections import Counter
