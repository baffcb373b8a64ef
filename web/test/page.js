// Tests the page in a headless Chromium: each example, the rows of tests/tables/, and all that a user does, down to the width of a phone; and from a
// folder, without a server. Where Firefox is there, it runs the examples and the rows too. Screenshots go to web/out. The last line counts what passed and
// failed. usage: node web/test/page.js
import { pathToFileURL } from "node:url";
import { Tab, serve } from "./browser.js";
import { testDocuments, testExamples, testStart, testTables } from "./content.js";
import { testFiles, testPaste } from "./files.js";
import { testFindings, testHighlighting, testKeyboard, testMarks, testEnd, testRefusals } from "./editor.js";
import { testLayout } from "./layout.js";
import { testLink, testLinkOfTheGuide, testOptions } from "./options.js";
import { testStale, testWhileItRuns } from "./stale.js";
import { testValues } from "./values.js";
import { FirefoxTab } from "./firefox.js";
import { Page, counts, expect, modules, out, web } from "./tests.js";

const TESTS = [
  testStart,
  testExamples,
  testMarks,
  testEnd,
  testHighlighting,
  testFindings,
  testRefusals,
  testValues,
  testKeyboard,
  testStale,
  testWhileItRuns,
  testOptions,
  testLinkOfTheGuide,
  testLink,
  testPaste,
  testFiles,
  testLayout,
  testDocuments,
  testTables,
];

const TESTS_IN_FIREFOX = [testStart, testExamples, testMarks, testOptions, testTables];
const TESTS_FROM_A_FOLDER = [testStart, testMarks, testFindings];
const FOLDER = pathToFileURL(out).href;

async function run(tests, tab, address) {
  const page = new Page(tab, address);
  for (const test of tests) {
    await page.open();
    await test(page);
  }
}

async function main() {
  const server = await serve(out, web, modules);
  const tab = await Tab.open();
  await run(TESTS, tab, server.address);
  await run(TESTS_FROM_A_FOLDER, tab, FOLDER);
  expect("errors that the page reports", tab.errors, []);
  await tab.close();
  const firefox = await FirefoxTab.open();
  if (firefox) {
    await run(TESTS_IN_FIREFOX, firefox, server.address);
    await run(TESTS_FROM_A_FOLDER, firefox, FOLDER);
    await firefox.close();
  } else console.log("page: left out Firefox: it is not there");
  server.close();
  console.log(`${counts.passed} passed, ${counts.failed} failed`);
  process.exitCode = counts.failed ? 1 : 0;
}

main().catch((error) => {
  console.error(error);
  process.exit(1);
});
