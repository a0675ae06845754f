// What went wrong with an entity, in the sentences of the document.

import { find, h } from "./dom.js";

function sentenceOf(name, words) {
  const at = (rule) => find("sentences").content.querySelector(`[data-rule="${CSS.escape(rule)}"]`)?.textContent;
  const [first, second] = words;
  const [sentence, place] = {
    SchemaFault: [at(first) ?? at(name), words.slice(1).join(" ")],
    ShelfFault: [at(`${name} ${second}`), first],
    MissingTarget: [at(name), words.join(" ")],
    DuplicateOffer: [at(name), first],
  }[name] ?? [at(`${name} ${first}`) ?? at(name), second];
  return sentence?.replace("*", () => place);
}

export const problem = ({ error = {}, message }) =>
  h("li", sentenceOf(error.name, message.split(" ")), " ", h("code.rule", `${error.name} ${message}`));

const from = ({ origin, key }) => `${origin.replace("provider:", "provider ").replace("entity:", "")} (key ${key})`;

// An offer that waits while another one holds its reference.
export const contest = ({ holder, waiting }) =>
  `It comes from ${from(holder)}. It is offered by ${from(waiting)} too, which waits until the first one lets go.`;
