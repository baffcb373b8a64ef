// The layout: light and dark, on a desktop and at the width of a phone.
import path from "node:path";
import { expect, out } from "./tests.js";

const PROGRAM = `# n, and n numbers in one line
INT(1,100,n) NEWLINE
REPI(i,n,SPACE)
    INT(0,1000,a[i])
END
NEWLINE
ASSERT(UNIQUE(a))
`;
const DATA = "3\n7 1 1001\n";
const BACKGROUNDS = { light: "rgb(255, 255, 255)", dark: "rgb(24, 26, 27)" };
const SHAPES = [
  ["desktop", 1100, 900, "light"],
  ["dark", 1100, 900, "dark"],
  ["phone", 360, 740, "light"],
  ["phone-dark", 360, 740, "dark"],
];

export async function testLayout(page) {
  const { tab } = page;
  for (const [name, width, height, scheme] of SHAPES) {
    await tab.ask("Emulation.setDeviceMetricsOverride", { width, height, deviceScaleFactor: 1, mobile: width < 600 });
    await tab.ask("Emulation.setEmulatedMedia", { features: [{ name: "prefers-color-scheme", value: scheme }] });
    await page.open();
    expect(`${name}: the page begins at its top`, await tab.evaluate("scrollY"), 0);
    await tab.screenshot(path.join(out, `${name}-start.png`));
    await page.set("program", PROGRAM);
    await page.set("data", DATA);
    expect(`${name}: Check is in sight`, await page.isInSight("check"), true);
    expect(`${name}: the message`, await page.check(), "line 2 column 5: value out of range (program line 4 column 5)\n");
    expect(`${name}: the answer is in sight`, await page.isInSight("result"), true);
    expect(`${name}: nothing is wider than the page`, await tab.evaluate("document.documentElement.scrollWidth <= innerWidth"), true);
    expect(`${name}: the background`, await tab.evaluate("getComputedStyle(document.body).backgroundColor"), BACKGROUNDS[scheme]);
    await tab.screenshot(path.join(out, `${name}.png`));
    await page.set("data", "3\n");
    await tab.screenshot(path.join(out, `${name}-changed.png`));
    expect(`${name}: a verdict on other data is in sight as such`, [await page.isInSight("verdict"), (await page.answer())[0]], [true, "stale"]);
  }
  await tab.ask("Emulation.clearDeviceMetricsOverride");
  await tab.ask("Emulation.setEmulatedMedia", { features: [] });
}
