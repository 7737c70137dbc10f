// What is said of a module of another version, for trials/package: `node versions.mjs FOLDER`, the folder of the package. A line for each
// trial that fails, and status 1 then.

import { pathToFileURL } from 'node:url';

const { Engine, fits, Misfit } = await import(pathToFileURL(`${process.argv[2]}/engine.mjs`));

// (module (memory (export "memory") 1) (data (i32.const 8) "2.0.0\00") (func (export "stratbench_limit") (param i64))
//   (func (export "stratbench_version") (result i64) (i64.const 8)))
const LATER = 'AGFzbQEAAAABCQJgAAF+YAF+AAMDAgABBQMBAAEHMgMGbWVtb3J5AgASc3RyYXRiZW5jaF92ZXJzaW9uAAAQc3RyYXRiZW5jaF9saW1pdAABCgoCBABCCAsDAAELCwwBAEEICwYyLjAuMAA=';
// The same without a version.
const EARLIER = 'AGFzbQEAAAABBQFgAX4AAwIBAAUDAQABBx0CBm1lbW9yeQIAEHN0cmF0YmVuY2hfbGltaXQAAAoFAQMAAQs=';

const wrong = [];
for (const [coded, what] of [[LATER, 'is version 2.0.0'], [EARLIER, 'says no version']]) {
  try {
    await Engine.load(Buffer.from(coded, 'base64'));
    wrong.push(`a module that ${what} is taken`);
  } catch (fault) {
    const wanted = `the engine ${what}, and this client is for versions from 1.3.0 to below 2.0.0`;
    if (!(fault instanceof Misfit) || fault.message !== wanted) wrong.push(`${fault}`);
  }
}
for (const [version, is] of [['1.3.0', true], ['1.2.9', false], ['1.10.0', true], ['2.0.0', false], ['', false], ['x.y.z', false]]) {
  if (fits(version) !== is) wrong.push(`${version}: ${fits(version)}`);
}
wrong.forEach(it => console.log(it));
process.exitCode = wrong.length ? 1 : 0;
