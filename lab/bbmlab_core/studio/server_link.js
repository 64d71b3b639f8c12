/**
 * Asks the server. Each request carries the key, which the page gets once for the token in its address, and the number
 * of the tab.
 */

const TAB_STORAGE_KEY = "bbmlab tab", KEY_ENTRY = "bbmlab key";
// How long a page that is loaded again waits until the one before has let go of the tab's number, in milliseconds.
const TAB_LOCK_MILLISECONDS = 500;
const lockName = (tab) => `${TAB_STORAGE_KEY} ${tab}`;

/**
 * Holds the lock of a tab's number until the page is closed. Resolves to whether no other page holds it, as far as the
 * options let it wait.
 */
function holdTabLock(tab, options = {}) {
  return new Promise((resolve) => {
    navigator.locks.request(lockName(tab), options, () => {
      resolve(true);
      return new Promise(() => {});
    }).catch(() => resolve(false));
  });
}

/**
 * Returns the number of this tab, which lasts as long as the tab. A tab that was duplicated begins with the other's
 * number, and takes a new one.
 */
async function claimTab() {
  const old = sessionStorage.getItem(TAB_STORAGE_KEY);
  if (old
    && (!navigator.locks || await holdTabLock(old, { signal: AbortSignal.timeout(TAB_LOCK_MILLISECONDS) }))) return old;
  const fresh = crypto.randomUUID();
  sessionStorage.setItem(TAB_STORAGE_KEY, fresh);
  if (navigator.locks) await holdTabLock(fresh);
  return fresh;
}

/** Sends a request, and returns the status and the answer. */
async function postRequest(name, body, key) {
  const headers = { "Content-Type": "application/json", ...(key ? { "X-Bbmlab-Key": key } : {}) };
  const answer = await fetch(`api/${name}`, { method: "POST", headers, body: JSON.stringify(body) });
  return { status: answer.status, answer: await answer.json() };
}

/**
 * Returns the key: for the token in the address, which is taken out of it, or the one that an earlier page got. The
 * browser shows what it keeps for an address to pages of this address alone, and unlike a cookie it goes to no other
 * port.
 */
async function obtainKey() {
  const token = location.hash.slice(1);
  if (token) {
    history.replaceState(null, "", location.pathname);
    const { status, answer } = await postRequest("enter", { token });
    if (status === 200) localStorage.setItem(KEY_ENTRY, answer.key);
  }
  return localStorage.getItem(KEY_ENTRY);
}

// The address that was printed may be put into a tab that shows the page.
addEventListener("hashchange", () => { if (location.hash) location.reload(); });
// It is of the server that was asked first: a page does not go on with another one at the same address.
const keyPromise = obtainKey(), tabPromise = claimTab();
keyPromise.catch(() => {});

/** Returns the server's answer. Without one it has the member `gone`. */
async function request(name, body = {}) {
  server.tab = await tabPromise;
  try {
    const { status, answer } = await postRequest(name, { ...body, tab: server.tab }, await keyPromise);
    return status === 403 ? { gone: true, error: `The studio does not let this page in: ${answer.error}.` } : answer;
  } catch {
    return { gone: true,
      error: `The server of the studio does not answer. ${server.keepAndDescribeDraft()}Run \`bbmlab studio\` again.` };
  }
}

// `tab` is known when the first answer is there. `keepAndDescribeDraft` keeps the text, and says so, without a server.
const server = { request, tab: null, lockName, keepAndDescribeDraft: () => "" };

export { server };
