// The questions of a lesson: their right answers are words of the module's replies.

// A word as answers are compared: case, an & and zeros in front don't count, and neither does `bytes` behind a number.
function plain(text) {
  return text.trim().toLowerCase().replace(/(?<=\d) *bytes?$/, "").replace(/^&?0*(?=.)/, "").replace(/ +/g, " ");
}

// Whether two answers are the same.
export function isSameAnswer(given, right) {
  return plain(given) === plain(right);
}

// The right answer to one field of a question, of a lesson's script: the module runs its lines up to one of them, then
// commands of the question, and a word of a row of the last reply is the answer.
export function rightAnswer({ upTo, then, row, word }, { lines, pages, files }, session) {
  const reply = session.replyTo({ lines: [...lines.slice(0, upTo), ...then], pages, files });
  return reply.split("\n")[row - 1]?.trim().split(" ")[word - 1] ?? "";
}

// The questions that stand beside the script when so many of its lines have run: those that were asked last.
export function dueQuestions(questions, position) {
  const due = questions.filter(({ after }) => after <= position);
  const last = Math.max(...due.map(({ after }) => after));
  return due.filter(({ after }) => after === last);
}
