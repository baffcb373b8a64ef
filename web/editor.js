// The editor, with the parts of it that the page uses.
import CodeMirror from "codemirror/lib/codemirror.js";
import "codemirror/addon/mode/simple.js";
import "codemirror/addon/edit/matchbrackets.js";
import "codemirror/addon/edit/trailingspace.js";

export default CodeMirror;
