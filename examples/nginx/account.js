// What nginx knows of a credential. It goes to /etc/nginx/desk/account.js.

import crypto from "crypto";

const LEAST = 8, MOST = 128;

// The token that a credential shows, if it has the form of one that an account may have; else nothing.
function tokenOf(credential) {
  const found = /^bearer +([-._~+\/0-9a-z]+=*)$/i.exec(credential);
  const token = found === null ? "" : found[1];
  return LEAST <= token.length && token.length <= MOST ? token : "";
}

// The digest of the token that a request shows; nothing if it shows none. What nginx keeps of a token is this alone.
function digest(request) {
  const token = tokenOf(request.headersIn.Authorization || "");
  return token === "" ? "" : crypto.createHash("sha256").update(token).digest("hex");
}

export default { digest };
