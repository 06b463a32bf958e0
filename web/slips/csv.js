// Records of a CSV file, as the desk reads them (docs/FORMATS.md, section 1).

const MARK = "\ufeff";
const FIELD = /(?:"((?:[^"]|"")*)(?:"|$))?([^,\r\n]*)(,|\r\n|\r|\n|$)/y;

// The fields of a file, each with what ends it: a comma, a line's end, or nothing at the file's end.
function* fieldsOf(text) {
  FIELD.lastIndex = 0;
  for (let end = null; end !== "";) {
    const [, quoted, plain, ending] = FIELD.exec(text);
    end = ending;
    yield { field: (quoted ?? "").replaceAll('""', '"') + plain, isQuoted: quoted !== undefined, end };
  }
}

// The records of a text, each a list of its fields. An empty line is none.
export function recordsOf(text) {
  const records = [];
  let record = [];
  for (const { field, isQuoted, end } of fieldsOf(text.startsWith(MARK) ? text.slice(1) : text)) {
    const isEmptyLine = record.length === 0 && field === "" && !isQuoted && end !== ",";
    if (!isEmptyLine) record.push(field);
    if (end !== "," && record.length > 0) {
      records.push(record);
      record = [];
    }
  }
  return records;
}
