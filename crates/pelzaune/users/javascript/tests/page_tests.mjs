// The tests of the page: typing, each example, descriptions, the address, the log, and what everyone can use.

const quoted = JSON.stringify;
const DESCRIBED = '%d/%b/%Y:%H:%M:%S %z';

/** The text of an element. */
const textOf = (tab, selector) => tab.evaluate(`document.querySelector(${quoted(selector)}).textContent`);

/** Puts the focus on a field, and selects what is in it, so that typing replaces it. */
const focus = (tab, selector) => tab.evaluate(`(() => { const it = document.querySelector(${quoted(selector)}); it.focus(); it.select?.(); return true; })()`);

const click = (tab, selector) => tab.evaluate(`(() => { document.querySelector(${quoted(selector)}).click(); return true; })()`);

/** Waits until an expression is true. */
async function until(tab, expression, checks, what) {
  for (let tries = 0; tries < 600; tries++) {
    if (await tab.evaluate(`Boolean(${expression})`)) return true;
    await new Promise((resolve) => { setTimeout(resolve, 50); });
  }
  checks.isTrue(false, what);
  return false;
}

/** Opens the page at an address that holds a state. */
async function openAt(tab, page, state) {
  await tab.open('about:blank');
  await tab.open(`${page}#${new URLSearchParams(state)}`);
  await tab.evaluate('window.ready');
}

/** The rows of the table of a value. */
const rowsOf = (tab) => tab.evaluate("Object.fromEntries([...document.querySelectorAll('#values tr')].map((it) => [it.cells[0].textContent, it.cells[1].textContent]))");

export async function typing(tab, checks) {
  checks.same(await textOf(tab, '#verdict'), 'This text is accepted.', 'the first text');
  await focus(tab, '#text');
  await tab.type('2021-01-02T03:04:05.25-00:30');
  const rows = await rowsOf(tab);
  checks.same([rows['RFC 3339'], rows['In UTC'], rows['Milliseconds since 1970']],
    ['2021-01-02T03:04:05.25-00:30', '2021-01-02T03:34:05.25Z', '1609558445250'], 'the value');
  checks.same(await tab.evaluate("[...document.querySelectorAll('#parts li')].map((it) => it.textContent)"),
    ['year 2021', 'month 01', 'day 02', 'separator T', 'hour 03', 'minute 04', 'second 05', 'subsecond 25', 'offset hour -00', 'offset minute 30'], 'the parts');
  await focus(tab, '#text');
  await tab.type('2021-13-02T03:04:05Z');
  checks.same(await textOf(tab, '#verdict'), 'Month is out of range. At character 6: expected month.', 'the error');
  checks.same(await tab.evaluate("(() => { const it = document.querySelector('.wrong'); return [it.textContent, it.previousSibling.data, getComputedStyle(it, '::after').content]; })()"),
    ['1', '-', '"^"'], 'the caret');
  checks.same(await tab.evaluate("document.querySelector('#text').getAttribute('aria-invalid')"), 'true', 'the field');
  await focus(tab, '#text');
  await tab.type('2021-01-02T03:04:05Zé');
  checks.same(await textOf(tab, '#verdict'), 'Unexpected trailing characters; the end of input was expected. At character 21: expected the end.', 'after the end');
}

/** Texts, and their parts with the classes of their colours. */
const PARTS = [
  [{ format: 'rfc2822', text: 'Fri, 21 Nov 1997 09:55:06 -0600' }, [
    ['weekday Fri', 'day'], ['day 21', 'day'], ['month Nov', 'month'], ['year 1997', 'year'], ['hour 09', 'hour'], ['minute 55', 'minute'],
    ['second 06', 'second'], ['offset hour -06', 'offset'], ['offset minute 00', 'offset'],
  ]],
  [{ format: 'iso8601', text: '2020-W53-6T03:04:05,25Z' }, [
    ['year 2020', 'year'], ['week 53', 'year'], ['weekday 6', 'day'], ['hour 03', 'hour'], ['minute 04', 'minute'], ['second 05', 'second'],
    ['fraction 25', 'fraction'], ['offset hour Z', 'offset'],
  ]],
  [{ format: 'iso8601', text: '20210102T0304-0530' }, [
    ['year 2021', 'year'], ['month 01', 'month'], ['day 02', 'day'], ['hour 03', 'hour'], ['minute 04', 'minute'], ['offset hour -05', 'offset'],
    ['offset minute 30', 'offset'],
  ]],
  [{ format: 'iso8601', text: '030405Z', target: 'parseTime' }, [
    ['hour 03', 'hour'], ['minute 04', 'minute'], ['second 05', 'second'], ['offset hour Z', 'offset'],
  ]],
  [{ format: 'iso8601', text: '2021-01', target: 'parseParts' }, [['hour 20', 'hour'], ['minute 21', 'minute'], ['offset hour -01', 'offset']]],
  [{ format: 'description', description: DESCRIBED, text: '10/Oct/2000:13:55:36 -0700' }, [
    ['day 10', 'day'], ['month Oct', 'month'], ['year 2000', 'year'], ['hour 13', 'hour'], ['minute 55', 'minute'], ['second 36', 'second'],
    ['offset hour -07', 'offset'], ['offset minute 00', 'offset'],
  ]],
  [{ format: 'description', description: '[ordinal], [hour repr:12 padding:none] [period]', text: '366, 1 PM', target: 'parseParts' }, [
    ['ordinal 366', 'day'], ['hour 1', 'hour'], ['period PM', 'hour'],
  ]],
  [{ format: 'description', description: '[weekday], [week_number] [unix_timestamp]', text: 'Monday, 05 1609556645' }, [
    ['weekday Monday', 'day'], ['week number 05', 'year'], ['unix_timestamp 1609556645', 'second'],
  ]],
  [{ format: 'rfc2822', text: 'Sat, 02 Januar 2021 03:04:05 +0000' }, [['weekday Sat', 'day'], ['day 02', 'day'], ['month Jan', 'month']]],
];

/** The parts of a text have the colours of their components, in the text and in the list. */
export async function colours(tab, checks, { page }) {
  const colourOf = new Map();
  for (const [state, expected] of PARTS) {
    await openAt(tab, page, { target: 'parse', ...state });
    const listed = await tab.evaluate("[...document.querySelectorAll('#parts li')].map((it) => [it.textContent, it.className, getComputedStyle(it).color])");
    const shown = await tab.evaluate("[...document.querySelectorAll('#display .part')].map((it) => [it.textContent, it.className, getComputedStyle(it).color])");
    checks.same(listed.map(([text, name]) => [text, name]), expected, `the parts of ${state.text}`);
    checks.same(shown, listed.map(([text, name, colour]) => [text.split(' ').pop(), `part ${name}`, colour]), `the colours of ${state.text}`);
    for (const [, name, colour] of listed) colourOf.set(name, colour);
  }
  checks.same(new Set(colourOf.values()).size, colourOf.size, 'the colours differ');
}

/** A moment in the time zone of the browser. */
export async function timeZones(tab, checks, { page, timeZone }) {
  checks.same(timeZone, 'Asia/Tokyo', 'the time zone, nine hours ahead of UTC');
  await openAt(tab, page, { text: '1985-04-12T23:20:50.52Z' });
  const text = (await rowsOf(tab))[`In your time zone (${timeZone})`];
  checks.isTrue(/\b1985\b/.test(text) && /\b13\b/.test(text) && /\b0?8:20:50\b/.test(text), `1985-04-12T23:20:50Z is ${text}`);
}

export async function examples(tab, checks) {
  const count = await tab.evaluate("document.querySelectorAll('#examples button').length");
  checks.isTrue(count >= 40, `${count} examples`);
  for (let index = 0; index < count; index++) {
    const [text, expected, verdict, address] = await tab.evaluate(`(() => {
      const button = document.querySelectorAll('#examples button')[${index}];
      button.click();
      const isAccepted = document.querySelector('#verdict').className === 'good' && document.querySelector('#verdict').textContent !== '';
      return [button.textContent, button.closest('tr').cells[1].textContent, isAccepted ? '✓ accepted' : '✗ rejected', location.hash];
    })()`);
    checks.same(verdict, expected, `the example ${text}`);
    checks.isTrue(address.includes(new URLSearchParams({ text })), `the address ${address}`);
  }
}

export async function descriptions(tab, checks) {
  await click(tab, 'input[value=description]');
  await focus(tab, '#description');
  await tab.type('[year]-[moth]');
  checks.same(await textOf(tab, '#description-error'), 'No component has that name. At character 9.', 'an invalid description');
  checks.same(await textOf(tab, '#verdict'), '', 'no verdict');
  await focus(tab, '#description');
  await tab.type(DESCRIBED);
  checks.same(await textOf(tab, '#description-error'), '', 'a valid description');
  await focus(tab, '#text');
  await tab.type('10/Oct/2000:13:55:36 -0700');
  checks.same((await rowsOf(tab))['In UTC'], '2000-10-10T20:55:36Z', 'its value');
  checks.same((await rowsOf(tab))['By the description'], '10/Oct/2000:13:55:36 -0700', 'the text by the description');
  checks.same((await rowsOf(tab))['In JavaScript'], `parse('10/Oct/2000:13:55:36 -0700', description('${DESCRIBED}'))`, 'the call');
}

export async function addresses(tab, checks, { page }) {
  const state = { format: 'description', description: DESCRIBED, text: '10/Oct/2000:13:55:36 -0700', target: 'parseDate' };
  await openAt(tab, page, state);
  checks.same((await rowsOf(tab)).Date, '2000-10-10', 'the state of an address');
  await openAt(tab, page, { format: 'none', target: 'constructor', text: '<b>&"\u{1f550}</b>' });
  checks.same(await tab.evaluate("[document.querySelector('#text').value, document.querySelectorAll('#display b').length, document.querySelector('#target').value]"),
    ['<b>&"\u{1f550}</b>', 0, 'parse'], 'an odd address');
  await openAt(tab, page, { text: '', format: 'iso8601' });
  checks.same(await tab.evaluate("document.querySelector('#verdict').className"), 'bad', 'an empty text');
}

/** Pastes lines, and waits until they are parsed. */
async function paste(tab, checks, lines) {
  await tab.evaluate(`(() => {
    const field = document.querySelector('#lines');
    field.focus();
    field.value = ${quoted(lines)};
    field.dispatchEvent(new Event('input'));
    return true;
  })()`);
  await until(tab, "document.querySelector('#tally').textContent", checks, 'the log is parsed');
}

/** Lines that are pasted. */
export async function pasting(tab, checks) {
  await paste(tab, checks, 'a 2021-01-02T03:04:05Z b\n\n2021-02-30T00:00:00Z\nnothing\n[1996-12-19T16:39:57-08:00] \u{1f550}é <b>\n2021-01-02T03:04:5Z');
  checks.isTrue(/^6 lines in .* 2 have a time, and 4 have none\. The times are from 1996-12-20T00:39:57Z to 2021-01-02T03:04:05Z\.$/.test(await textOf(tab, '#tally')), await textOf(tab, '#tally'));
  checks.same(await tab.evaluate("[...document.querySelectorAll('#log mark')].map((it) => it.textContent)"),
    ['2021-01-02T03:04:05Z', '', '2021-02-30T00:00:00Z', '', '1996-12-19T16:39:57-08:00', '2021-01-02T03:04:'], 'the times');
  checks.same(await tab.evaluate("document.querySelectorAll('#log li.missing').length"), 4, 'the marked lines');
  await click(tab, '#only-errors');
  checks.same(await tab.evaluate("document.querySelectorAll('#log li').length"), 4, 'only these');
  checks.isTrue((await textOf(tab, '#log li:nth-child(2)')).includes('day is out of range for the other components'), 'the reason');
}

/** A file of 50 MB, which a worker parses while the page answers. */
export async function files(tab, checks, { log }) {
  // The longest time between two turns of the page, until it shows the result.
  await tab.evaluate(`(() => {
    let last = performance.now();
    let longest = 0;
    const timer = setInterval(() => {
      const now = performance.now();
      longest = Math.max(longest, now - last);
      last = now;
      if (document.querySelector('#tally').textContent === '') return;
      clearInterval(timer);
      window.longest = longest;
    }, 10);
    return true;
  })()`);
  await tab.setFile('#file', log.path);
  await focus(tab, '#text');
  await tab.type('2021-01-02T03:04:05Z');
  checks.same((await rowsOf(tab))['RFC 3339'], '2021-01-02T03:04:05Z', 'typing meanwhile');
  await until(tab, "document.querySelector('#tally').textContent", checks, 'the file is parsed');
  const tally = await textOf(tab, '#tally');
  checks.isTrue(tally.startsWith(`${log.lines.toLocaleString('en')} lines in `) && tally.includes(`${log.missing.toLocaleString('en')} have none`), tally);
  // The turn after the result is shown counts too, since the page may have been frozen until then.
  await until(tab, 'window.longest', checks, 'a turn after the result');
  const longest = Math.round(await tab.evaluate('window.longest'));
  const milliseconds = 1000 * /in ([\d.]+) seconds/.exec(tally)[1];
  checks.isTrue(longest <= milliseconds / 2, `a turn of the page took ${longest} of ${milliseconds} milliseconds`);
  console.log(`    50 MB: ${tally} The page waited for at most ${longest} milliseconds.`);
}

/** A dropped file, also of bytes that aren't UTF-8, and one without bytes. */
export async function drops(tab, checks) {
  const drop = (bytes) => tab.evaluate(`(() => {
    document.querySelector('#tally').textContent = '';
    const data = new DataTransfer();
    data.items.add(new File([${bytes}], 'dropped.log'));
    document.querySelector('#drop').dispatchEvent(new DragEvent('drop', { dataTransfer: data, bubbles: true, cancelable: true }));
    return true;
  })()`);
  const tallied = async (what) => {
    await until(tab, "document.querySelector('#tally').textContent", checks, what);
    return textOf(tab, '#tally');
  };
  await drop("'2021-01-02T03:04:05Z\\r\\n'.repeat(50000)");
  checks.isTrue((await tallied('a file')).startsWith('50,000 lines'), 'a dropped file');
  await drop('Uint8Array.from({ length: 300000 }, (_, k) => (k * k * 31) % 251)');
  checks.isTrue((await tallied('odd bytes')).includes('none'), 'odd bytes');
  await drop("'x'.repeat(3000000)");
  checks.isTrue((await tallied('a long line')).includes('none'), 'a long line');
  await drop('new Uint8Array(0)');
  checks.isTrue((await tallied('nothing')).startsWith('0 lines'), 'an empty file');
}

/** The contrast of two colours of CSS. */
const CONTRAST = `(first, second) => {
  const light = (colour) => {
    const [red, green, blue] = colour.match(/[\\d.]+/g).map((it) => it / 255).map((it) => (it <= 0.04045 ? it / 12.92 : ((it + 0.055) / 1.055) ** 2.4));
    return 0.2126 * red + 0.7152 * green + 0.0722 * blue;
  };
  const [less, more] = [light(first), light(second)].sort((a, b) => a - b);
  return (more + 0.05) / (less + 0.05);
}`;

/** The elements with text whose contrast with what is behind them is too small. */
const FAINT = `(() => {
  const contrast = ${CONTRAST};
  const behind = (it) => { for (let at = it; at; at = at.parentElement) { const colour = getComputedStyle(at).backgroundColor; if (!/, 0\\)$|transparent/.test(colour)) return colour; } return 'rgb(255, 255, 255)'; };
  return [...document.querySelectorAll('body *')].filter((it) => it.checkVisibility() && [...it.childNodes].some((node) => node.nodeType === 3 && node.data.trim()))
    .map((it) => [it.tagName + '.' + it.className + ' ' + it.textContent.slice(0, 20), contrast(getComputedStyle(it).color, behind(it))]).filter(([, ratio]) => ratio < 4.5);
})()`;

/** Every control has a name and is large enough, texts have contrast, and no page is wider than its screen. */
export async function everyone(tab, checks, { page }) {
  for (const scheme of tab.prefer ? ['light', 'dark'] : ['light']) {
    await tab.prefer?.(scheme);
    await openAt(tab, page, { text: '1985-04-12', format: 'description', description: '[yaer]' });
    checks.same(await tab.evaluate(FAINT), [], `contrast of an invalid description in ${scheme}`);
    for (const text of ['1985-04-12T23:20:50.52-08:30', '1985-13-12T23:20:50Z']) {
      await openAt(tab, page, { text, format: 'rfc3339' });
      await paste(tab, checks, '2021-01-02T03:04:05Z a time\nnothing\n2021-02-30T00:00:00Z no day');
      checks.same(await tab.evaluate(FAINT), [], `contrast in ${scheme}`);
    }
  }
  checks.same(await tab.evaluate("[...document.querySelectorAll('input, select, textarea')].filter((it) => it.checkVisibility() && !it.labels?.length).map((it) => it.id)"), [], 'labels');
  for (const width of [1280, 360, 320]) {
    await tab.resize(width, 800);
    checks.isTrue(await tab.evaluate('document.documentElement.scrollWidth <= innerWidth'), `no wider than ${width}`);
    checks.same(await tab.evaluate("[...document.querySelectorAll('button, select, input[type=text], textarea, label:has(input), input[type=file]')].filter((it) => it.checkVisibility() && Math.min(it.offsetWidth, it.offsetHeight) < 24).map((it) => it.outerHTML.slice(0, 80))"), [], `the sizes at ${width}`);
  }
  await tab.resize(1280, 800);
}

/** All controls are reached by the keyboard, in the order of the page. */
export async function keyboard(tab, checks) {
  await tab.evaluate('document.body.focus()');
  const reached = [];
  for (let k = 0; k < 6; k++) {
    await tab.press('Tab');
    reached.push(await tab.evaluate('document.activeElement.id || document.activeElement.name'));
  }
  checks.same(reached.slice(0, 5), ['format', 'text', 'target', 'lines', 'file'], 'the order of the controls');
  if (!tab.pressesButtons) return;
  await focus(tab, '#examples button');
  await tab.press('Enter');
  await until(tab, "document.activeElement.id === 'text'", checks, 'an example by the keyboard');
}
