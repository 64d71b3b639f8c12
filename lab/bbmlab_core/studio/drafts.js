/**
 * Keeps drafts in the browser: a draft for each file and tab, with the digest of the file from which it began. A draft
 * whose tab is still open is not offered to other tabs: an open tab holds a lock with its number.
 */
import { server } from "./server_link.js";

const DRAFT_KEY_PREFIX = "bbmlab draft ";
const draftKey = (folder, name, tab) => `${DRAFT_KEY_PREFIX}${JSON.stringify([folder, name, tab])}`;

/** Keeps a draft. Returns false if the browser has no room. */
function keepDraft(folder, name, text, digest) {
  try {
    localStorage.setItem(draftKey(folder, name, server.tab), JSON.stringify({ text, digest, at: Date.now() }));
    return true;
  } catch { return false; }
}

/** Forgets this tab's draft of a file. */
function forgetDraft(folder, name, tab = server.tab) { localStorage.removeItem(draftKey(folder, name, tab)); }

/**
 * Puts this tab's draft of a file, from before the file was opened, under another name. It stays there until the user
 * takes it or throws it away: the tab's next draft of the file does not replace it.
 */
function setDraftAside(folder, name, saved) {
  const key = draftKey(folder, name, server.tab), draft = localStorage.getItem(key);
  if (draft === null) return;
  localStorage.removeItem(key);
  if (JSON.parse(draft).text !== saved) localStorage.setItem(draftKey(folder, name, crypto.randomUUID()), draft);
}

/**
 * Forgets the drafts that began from the file with a digest, which was written over. Those of other open tabs stay, for
 * them to ask about.
 */
async function forgetReplacedDrafts(folder, name, digest) {
  for (const draft of await findDrafts(folder, name)) if (draft.digest === digest) forgetDraft(folder, name, draft.tab);
}

/** Returns the drafts of a file that no other open tab is working on, the newest first. */
async function findDrafts(folder, name) {
  const held = navigator.locks ? (await navigator.locks.query()).held.map((lock) => lock.name) : [];
  const drafts = [];
  for (let index = 0; index < localStorage.length; index += 1) {
    const key = localStorage.key(index);
    if (!key.startsWith(DRAFT_KEY_PREFIX)) continue;
    try {
      const [place, file, tab] = JSON.parse(key.slice(DRAFT_KEY_PREFIX.length));
      const draft = JSON.parse(localStorage.getItem(key));
      const isOther = tab !== server.tab && held.includes(server.lockName(tab));
      if (place === folder && file === name && !isOther
          && typeof draft.text === "string") drafts.push({ ...draft, tab });
    } catch { /* Somebody else's entry. */ }
  }
  return drafts.sort((one, other) => other.at - one.at);
}

export { keepDraft, forgetDraft, forgetReplacedDrafts, setDraftAside, findDrafts };
