// A tab of Chromium, driven by DevTools.

const LOAD_MILLISECONDS = 120000;

/** What the console shows, as text. */
function consoleText({ method, params }) {
  if (method === 'Runtime.exceptionThrown') return params.exceptionDetails.exception?.description ?? params.exceptionDetails.text;
  if (method === 'Log.entryAdded') return `${params.entry.level}: ${params.entry.text} ${params.entry.url ?? ''}`;
  if (method === 'Runtime.consoleAPICalled') return `${params.type}: ${params.args.map((it) => it.value ?? it.description).join(' ')}`;
  return undefined;
}

/** The tab, once a page is in it. */
export async function chromiumTab(wire) {
  const { targetInfos } = await wire.send('Target.getTargets');
  const { targetId } = targetInfos.find((it) => it.type === 'page');
  const { sessionId } = await wire.send('Target.attachToTarget', { targetId, flatten: true });
  const send = (method, params) => wire.send(method, params, { sessionId });
  const messages = [];
  let onLoad = () => {};
  wire.listen((event) => {
    if (event.method === 'Page.loadEventFired') onLoad();
    const text = consoleText(event);
    if (text !== undefined) messages.push(text);
  });
  for (const domain of ['Page', 'Runtime', 'Log', 'DOM']) await send(`${domain}.enable`);
  return {
    messages,
    async open(url) {
      let timer;
      const loaded = new Promise((resolve, reject) => {
        onLoad = resolve;
        timer = setTimeout(() => reject(new Error(`${url} doesn't load`)), LOAD_MILLISECONDS);
      });
      await send('Page.navigate', { url });
      await loaded;
      clearTimeout(timer);
    },
    /** The value of an expression, which may be a promise. */
    async evaluate(expression) {
      const { result, exceptionDetails } = await send('Runtime.evaluate', { expression, awaitPromise: true, returnByValue: true });
      if (exceptionDetails) throw new Error(exceptionDetails.exception?.description ?? exceptionDetails.text);
      return result.value;
    },
    /** Types characters where the focus is. */
    async type(text) {
      for (const character of text) {
        await send('Input.dispatchKeyEvent', { type: 'keyDown', text: character, key: character });
        await send('Input.dispatchKeyEvent', { type: 'keyUp', key: character });
      }
    },
    async press(key) {
      const code = { Tab: 9, Enter: 13 }[key];
      const params = { key, code: key, windowsVirtualKeyCode: code, ...(key === 'Enter' ? { text: '\r' } : {}) };
      await send('Input.dispatchKeyEvent', { type: 'keyDown', ...params });
      await send('Input.dispatchKeyEvent', { type: 'keyUp', ...params });
    },
    pressesButtons: true,
    async setFile(selector, path) {
      const { root } = await send('DOM.getDocument');
      const { nodeId } = await send('DOM.querySelector', { nodeId: root.nodeId, selector });
      await send('DOM.setFileInputFiles', { nodeId, files: [path] });
    },
    resize: (width, height) => send('Emulation.setDeviceMetricsOverride', { width, height, deviceScaleFactor: 1, mobile: false }),
    prefer: (scheme) => send('Emulation.setEmulatedMedia', { features: [{ name: 'prefers-color-scheme', value: scheme }] }),
    /** A PNG of the page, whole or from its top to a height. */
    async screenshot(height) {
      const { cssContentSize } = await send('Page.getLayoutMetrics');
      const clip = { ...cssContentSize, height: height ?? cssContentSize.height, scale: 1 };
      const { data } = await send('Page.captureScreenshot', { format: 'png', captureBeyondViewport: true, clip });
      return Buffer.from(data, 'base64');
    },
  };
}
