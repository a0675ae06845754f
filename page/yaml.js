// A value as block YAML.

const PLAIN = /^[A-Za-z_/](?:[\w./@ +-]*[\w./@+-])?$/;
const WORDS = /^(?:true|false|null|yes|no|on|off|y|n)$/i;

const isBranch = (value) => value instanceof Object && !JSON.isRawJSON?.(value);

const scalar = (value) => (typeof value === "string" && PLAIN.test(value) && !WORDS.test(value) ? value : JSON.stringify(value));

function leaf(value, indent) {
  if (!/^\S.*\n/.test(value) || /[^\n\x20-\x7e\u00a0-\ud7ff]/.test(value)) return scalar(value);
  const end = value.endsWith("\n\n") ? "+" : value.endsWith("\n") ? "" : "-";
  return `|${end}\n${value.replace(/\n$/, "").replaceAll(/^(?=.)/gm, indent)}`;
}

// What stands behind or below a key or a hyphen.
export function yaml(value, indent = "") {
  if (!isBranch(value)) return leaf(value, indent);
  const isList = Array.isArray(value);
  const lines = Object.entries(value).map(([key, inner]) => {
    const text = yaml(inner, `${indent}  `);
    const isBlock = isBranch(inner) && Object.keys(inner).length > 0;
    return isList ? `${indent}- ${isBlock ? text.trimStart() : text}` : `${indent}${scalar(key)}:${isBlock ? "\n" : " "}${text}`;
  });
  return lines.join("\n") || (isList ? "[]" : "{}");
}
