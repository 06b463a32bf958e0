// The form by which a team asks the jury.

import { at, fill } from "../shared/elements.js";
import { choice, isWithin, onSubmit } from "../shared/forms.js";
import { ABOUT_ALL, problemText } from "../shared/settings.js";

const TEXT_LIMIT = 4_096;

export const QUESTION = {
  name: "question", buttons: "#question-button", words: () => "The jury has your question.",
  about: () => "Your question",
};

export const sendQuestion = (page, value) => page.outbox.post(QUESTION, `${page.path}/clarifications`, value);

async function askJury(page) {
  const value = { text: at("question-text").value };
  if (at("question-problem").value) value.problem_id = at("question-problem").value;
  if (!isWithin(value.text, TEXT_LIMIT)) return;
  const question = await sendQuestion(page, value);
  if (question !== null && at("question-text").value === value.text) at("question-text").value = "";
  page.renew.quick();
}

export function showQuestionChoices({ settings: { problems } }) {
  fill(at("question-problem"), [ABOUT_ALL, ...problems.values()].map((problem) => choice(problem, problemText)));
}

export function beginQuestions(page) {
  onSubmit("question", () => askJury(page));
}
