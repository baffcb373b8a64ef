// The values of the variables at a fault, which the page asks the checker for. They are worked out by hand.
import { expect } from "./tests.js";

// Programs, data, and what is told of the fault.
const FAULTS = [
  ["INT(1,9,n) NEWLINE\nREPI(i,n,SPACE)\n    INT(-9,9,a[i])\nEND", "3\n1 -2 33\n", "value out of range: 33; bounds -9 .. 9, i = 2"],
  ["INT(1,10^9,n) SPACE INT(1,2*n) NEWLINE", "500000000 1000000001\n", "value out of range: 1000000001; bounds 1 .. 2*n = 1000000000, n = 500000000"],
  ["INT(0,9,a) SPACE INT(0,9,b) ASSERT(a < b)", "5 4", "assertion failed: a = 5, b = 4, in a < b"],
  ["INT(0,9,a) ASSERT(a<5 && a!=7 || a==9)", "7", "assertion failed: a = 7, in a<5 || a==9"],
  ["INT(-99,9,a) ASSERT(0<1 && (a>0||a==-5) && a<9)", "-7", "assertion failed: a = -7, in a>0 || a==-5"],
  ["ASSERT(1==2)", "", "assertion failed: 1==2 is false"],
  ["REP(3, ASSERT(x==1)) SET(x=2) END", "", "assertion failed: x = 2, in x==1"],
  ['REGEX("[a-z]+",w) NEWLINE # a comment\nASSERT(STRLEN(w)<=3) EOF', "four\n", 'assertion failed: STRLEN(w) = 4, w = "four", in STRLEN(w)<=3'],
  ['SET(s="a\\"\\\\\\n\\377") ASSERT(s=="b")', "", 'assertion failed: s = "a\\"\\\\\\n\\377", in s=="b"'],
  ["INT(-2^126*2,2^126-1+2^126,n) ASSERT(n>0)", "-170141183460469231731687303715884105728", "assertion failed: n = -170141183460469231731687303715884105728, in n>0"],
  ["SET(n=170141183460469231731687303715884105727) ASSERT(n<0)", "", "assertion failed: n = 170141183460469231731687303715884105727, in n<0"],
  ["INT(0,9,n) REPI(i,5) SET(x=8/(n-i)) END", "3", "division by zero: n = 3, i = 3"],
  ["INT(0,9,n) REP(n-5) END", "3", "bad count: n = 3"],
  ["SET(a[1,2]=7,i=1) ASSERT(a[i,i+1]==6) ", "", "assertion failed: a[i,i+1] = 7, i = 1, in a[i,i+1]==6"],
  ['STRING("a") NEWLINE', "b\n", ""],
  ["INT(1,5) NEWLINE", "3\n", ""],
];

export async function testValues(page) {
  for (const [program, data, told] of FAULTS) {
    await page.set("program", program);
    await page.set("data", data);
    await page.check();
    await page.tab.wait(`result.ariaBusy !== "true"`);
    expect(`${program}: values`, await page.evaluate(`document.getElementById("words").textContent`), told);
  }
  await page.set("program", "INT(1,5) NEWLINE");
  await page.set("data", "7\n");
  await page.check();
  await page.set("data", "8\n");
  expect("what changes is asked no more", await page.evaluate(`[result.ariaBusy, document.getElementById("words").textContent]`), ["false", ""]);
}
