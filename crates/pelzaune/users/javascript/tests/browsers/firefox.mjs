// A tab of Firefox, driven by the bidirectional WebDriver.

const KEYS = { Tab: '\ue004', Enter: '\ue006' };

/** The element of a CSS selector, as commands take it. */
async function elementOf(send, context, selector) {
  const { nodes } = await send('browsingContext.locateNodes', { context, locator: { type: 'css', value: selector } });
  return { sharedId: nodes[0].sharedId };
}

/** The tab, once a session has begun. */
export async function firefoxTab({ send, listen }) {
  await send('session.new', { capabilities: {} });
  const { contexts } = await send('browsingContext.getTree');
  const [{ context }] = contexts;
  const messages = [];
  listen(({ method, params }) => {
    if (method === 'log.entryAdded') messages.push(`${params.level}: ${params.text}`);
  });
  await send('session.subscribe', { events: ['log.entryAdded'] });
  const keys = (all) => send('input.performActions', {
    context,
    actions: [{ type: 'key', id: 'keyboard', actions: all.flatMap((value) => [{ type: 'keyDown', value }, { type: 'keyUp', value }]) }],
  });
  return {
    messages,
    open: (url) => send('browsingContext.navigate', { context, url, wait: 'complete' }),
    /** The value of an expression, which may be a promise. */
    async evaluate(expression) {
      const answer = await send('script.evaluate', {
        expression: `Promise.resolve(${expression}).then((it) => JSON.stringify(it))`, target: { context }, awaitPromise: true,
      });
      if (answer.type === 'exception') throw new Error(answer.exceptionDetails.text);
      return answer.result.type === 'undefined' ? undefined : JSON.parse(answer.result.value);
    },
    type: (text) => keys([...text]),
    press: (key) => keys([KEYS[key]]),
    /** Keys of WebDriver don't press a button in a Firefox without a screen. */
    pressesButtons: false,
    async setFile(selector, path) {
      await send('input.setFiles', { context, element: await elementOf(send, context, selector), files: [path] });
    },
    resize: (width, height) => send('browsingContext.setViewport', { context, viewport: { width, height }, devicePixelRatio: 1 }),
    /** WebDriver has no command for it, so a style sheet can't be tested by it here. */
    prefer: undefined,
    /** A PNG of the whole page. */
    async screenshot() {
      const { data } = await send('browsingContext.captureScreenshot', { context, origin: 'document' });
      return Buffer.from(data, 'base64');
    },
  };
}
