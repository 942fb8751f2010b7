// Requests to the server that has sent this page. A hand that drags asks more often than answers come: only the newest question
// waits.

export class Refusal extends Error {
  constructor(refusal) {
    super(refusal.words);
    this.refusal = refusal;
  }
}

// Nobody has answered at all.
export class Unreachable extends Error {}

async function asked(path, body) {
  const told = { method: "POST", headers: { "Content-Type": "application/json" }, body: JSON.stringify(body) };
  const response = await fetch(path, told).catch((error) => {
    throw new Unreachable(error.message);
  });
  if (response.ok) return response;
  const said = await response.json().catch(() => ({ words: `The server answered with ${response.status}.` }));
  if (said.refusal) throw new Refusal(said.refusal);
  throw new Error(said.words);
}

export async function given() {
  return (await fetch("given")).json();
}

export async function ask(path, body) {
  return (await asked(path, body)).json();
}

// An answer that may be a refusal, which is thrown.
export async function askOrRefuse(path, body) {
  const answer = await ask(path, body);
  if (answer.refusal) throw new Refusal(answer.refusal);
  return answer;
}

export async function askFile(path, body) {
  const response = await asked(path, body);
  const [, name] = /filename="([^"]*)"/.exec(response.headers.get("Content-Disposition"));
  return { name, blob: await response.blob() };
}

const KEPT_TIMES = 1000; // of changes, for whoever measures them

export class Newest {
  constructor(path, onAnswer, onFailure) {
    Object.assign(this, { path, onAnswer, onFailure, waiting: null, isBusy: false, answers: 0 });
  }

  // How long a change takes, from the question to the picture, in the browser's own list of times.
  note(start) {
    this.answers += 1;
    if (this.answers % KEPT_TIMES === 0) performance.clearMeasures("change");
    performance.measure("change", { start, end: performance.now() });
  }

  // Asks for a design, whose coefficients may still be those of the one before.
  async ask(design, before) {
    this.waiting = { design, before };
    if (this.isBusy) return;
    this.isBusy = true;
    while (this.waiting !== null) {
      const next = this.waiting;
      this.waiting = null;
      const start = performance.now();
      try {
        this.onAnswer(await ask(this.path, next), next.design, this.waiting === null);
        this.note(start);
      } catch (error) {
        this.onFailure(error);
      }
    }
    this.isBusy = false;
  }
}
