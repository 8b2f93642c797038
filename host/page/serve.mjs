// Serves the folder host/ on this machine, as pages can't load modules from files: node serve.mjs [PORT]
import { readFile } from "node:fs/promises";
import { createServer } from "node:http";
import { extname, join, resolve, sep } from "node:path";
import { fileURLToPath } from "node:url";

const folder = fileURLToPath(new URL("..", import.meta.url));
const types = { ".html": "text/html", ".mjs": "text/javascript", ".wasm": "application/wasm" };

/** A server of the folder; `others` has files that stand in for those of some paths. */
export function pageServer(others = {}) {
  return createServer(async (request, response) => {
    const { pathname } = new URL(request.url, "http://localhost");
    const path = pathname.endsWith("/") ? `${pathname}index.html` : pathname;
    const file = others[path] ?? resolve(join(folder, path));
    const isInside = path in others || file.startsWith(resolve(folder) + sep);
    try {
      const bytes = isInside ? await readFile(file) : undefined;
      response.writeHead(bytes ? 200 : 404, { "content-type": types[extname(path)] ?? "text/plain" });
      response.end(bytes);
    } catch {
      response.writeHead(404).end();
    }
  });
}

if (process.argv[1] === fileURLToPath(import.meta.url)) {
  const server = pageServer().listen(Number(process.argv[2] ?? 8000), "127.0.0.1", () => {
    console.log(`http://localhost:${server.address().port}/page/`);
  });
}
