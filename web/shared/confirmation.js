// Asks people once more before what they pressed is done.

import { button, element } from "./elements.js";

// Asks by these words. Whether it is to be done.
export function isSure(yes, ...words) {
  return new Promise((answered) => {
    const dialog = element("dialog", {}, element("p", {}, ...words));
    const end = (isYes) => {
      dialog.close();
      dialog.remove();
      answered(isYes);
    };
    dialog.append(button("No", () => end(false), { class: "no", autofocus: "" }));
    dialog.append(button(yes, () => end(true), { class: "yes" }));
    dialog.addEventListener("cancel", () => end(false));
    document.body.append(dialog);
    dialog.showModal();
  });
}
