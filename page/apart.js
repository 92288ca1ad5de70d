// Runs that take long, off the page's own thread: a worker makes a machine of its own from the same module, does the runs, and can be stopped.
"use strict";

const APART = () => `"use strict";
const NO_ANSWER = ${JSON.stringify(NO_ANSWER)}, MOST_ROOM = ${MOST_ROOM};
${Svec.toString()}
${Program.toString()}
${ended.toString()}
const MOST_STEPS = ${MOST_STEPS};
onmessage = async ({ data: { module, file, map, args, text, lengths } }) => {
  const svec = new Svec();
  svec.module = module;
  await svec.begin();
  const program = new Program(svec), done = [];
  for (const vl of lengths) done.push(program.run(file, map, args, vl)), postMessage({ count: done.length });
  postMessage({ lengths: done, meaning: program.evaluated(text, map, args) });
};`;

class Apart {
  // Begins the runs of a call at the sixteen lengths; `told` gets how many are done, `done` all of them.
  begin(model, told, done) {
    this.stop();
    const url = URL.createObjectURL(new Blob([APART()], { type: "text/javascript" }));
    this.worker = new Worker(url);
    this.worker.onmessage = ({ data }) => (data.lengths ? (this.stop(), done(data)) : told(data.count));
    this.worker.onerror = (event) => (this.stop(), told(null, event.message));
    const { file, map, args } = model.run;
    this.worker.postMessage({ module: model.program.svec.module, file, map, args, text: model.text, lengths: LENGTHS });
  }

  stop() {
    if (this.worker) this.worker.terminate();
    this.worker = null;
  }
}
