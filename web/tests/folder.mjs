// A folder for a test.
import { mkdtempSync, rmSync } from 'node:fs';
import { tmpdir } from 'node:os';
import { join } from 'node:path';

// does something with a folder that is then gone
export async function withFolder(work) {
  const folder = mkdtempSync(join(tmpdir(), 'crew-files-'));
  try {
    return await work(folder);
  } finally {
    rmSync(folder, { recursive: true, force: true });
  }
}
