// Makes CodeMirror 5 for the site as CodeMirror's src/edit/main.js does, without support for the fields of forms,
// extensions and older names. build.mjs lets `codemirror-src` stand for CodeMirror's folder src.
import { CodeMirror } from "codemirror-src/edit/CodeMirror.js";
import addEditorMethods from "codemirror-src/edit/methods.js";
import { defineOptions } from "codemirror-src/edit/options.js";
import ContentEditableInput from "codemirror-src/input/ContentEditableInput.js";
import TextareaInput from "codemirror-src/input/TextareaInput.js";
import Doc from "codemirror-src/model/Doc.js";

export { Pass } from "codemirror-src/util/misc.js";
export { defineMode } from "codemirror-src/modes.js";
export { CodeMirror, Doc };

/** The methods of a document that an editor lacks, or has in a form of its own. */
const OTHER = ["iter", "insert", "remove", "copy", "getEditor", "constructor"];

defineOptions(CodeMirror);
addEditorMethods(CodeMirror);
CodeMirror.inputStyles = { textarea: TextareaInput, contenteditable: ContentEditableInput };
for (const [name, method] of Object.entries(Doc.prototype)) {
  if (OTHER.includes(name)) continue;
  CodeMirror.prototype[name] = function (...given) {
    return method.apply(this.doc, given);
  };
}
