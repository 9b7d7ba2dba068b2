// Loads everything at once, checks it, and posts a report.
'use strict';

const PICTURES = 50;
const UPLOAD_LENGTH = 300000;
const CANCEL_AFTER = 400000;

function hexadecimal(buffer) {
  return Array.from(new Uint8Array(buffer), (byte) => byte.toString(16).padStart(2, '0')).join('');
}

async function sha256(buffer) {
  return hexadecimal(await crypto.subtle.digest('SHA-256', buffer));
}

function loadPicture(number) {
  return new Promise((resolve) => {
    const picture = new Image();
    picture.onload = () => resolve(picture.naturalWidth === 96);
    picture.onerror = () => resolve(false);
    picture.src = `/picture/${number}.png`;
    document.getElementById('pictures').append(picture);
  });
}

async function fetchAndCheck(path, wanted) {
  const response = await fetch(path);
  return (await sha256(await response.arrayBuffer())) === wanted;
}

async function upload() {
  const body = Uint8Array.from({length: UPLOAD_LENGTH}, (_, index) => index * 7);
  const response = await fetch('/up', {method: 'POST', body});
  return (await response.text()) === `${UPLOAD_LENGTH} ${await sha256(body)}`;
}

// Reads the beginning of 50 MB, and aborts the rest.
async function cancelDownload() {
  const controller = new AbortController();
  const response = await fetch('/50m', {signal: controller.signal});
  const reader = response.body.getReader();
  let length = 0;
  while (length < CANCEL_AFTER) {
    length += (await reader.read()).value.length;
  }
  controller.abort();
  return length < 50000000;
}

// How many of the promises were fulfilled with true.
async function countGood(promises) {
  const outcomes = await Promise.allSettled(promises);
  return outcomes.filter((outcome) => outcome.status === 'fulfilled' && outcome.value === true).length;
}

function protocols() {
  const counts = {};
  for (const entry of performance.getEntriesByType('resource')) {
    counts[entry.nextHopProtocol] = (counts[entry.nextHopProtocol] || 0) + 1;
  }
  return counts;
}

function show(report) {
  const rows = {
    'Pictures loaded': `${report.pictures} of ${PICTURES}`,
    'Fetches with the right SHA-256': `${report.fetches} of ${report.hashes}`,
    'Upload of 300,000 bytes with the right SHA-256': report.upload ? 'yes' : 'no',
    'Download of 50 MB cancelled after 400,000 bytes': report.cancelled ? 'yes' : 'no',
    'Protocol of the page': report.page,
    'Protocols of the resources': JSON.stringify(report.resources),
    'Milliseconds': report.milliseconds,
    'Browser': navigator.userAgent,
  };
  for (const [name, value] of Object.entries(rows)) {
    const row = document.getElementById('results').insertRow();
    row.insertCell().textContent = name;
    row.insertCell().textContent = value;
  }
}

async function run() {
  const began = performance.now();
  performance.setResourceTimingBufferSize(1000);
  const hashes = Object.entries(await (await fetch('/hashes.json')).json());
  const [pictures, fetches, uploaded, cancelled] = await Promise.all([
    countGood(Array.from({length: PICTURES}, (_, number) => loadPicture(number))),
    countGood(hashes.map(([path, wanted]) => fetchAndCheck(path, wanted))),
    countGood([upload()]),
    countGood([cancelDownload()]),
  ]);
  const report = {
    pictures,
    fetches,
    hashes: hashes.length,
    upload: uploaded === 1,
    cancelled: cancelled === 1,
    page: performance.getEntriesByType('navigation')[0].nextHopProtocol,
    resources: protocols(),
    milliseconds: Math.round(performance.now() - began),
  };
  show(report);
  await fetch('/report', {method: 'POST', body: JSON.stringify(report)});
}

run().catch((error) => {
  document.getElementById('results').insertRow().insertCell().textContent = String(error);
  return fetch('/report', {method: 'POST', body: JSON.stringify({error: String(error)})});
});
