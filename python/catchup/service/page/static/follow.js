// Which version the service has: it tells by server-sent events; where it doesn't it is asked.

import { address, ask, isReachable, setReachable, setVersion } from "./service.js";

const PAUSE = 2000;

// Calls back with each version but the one of which the page began: another may come before the first event does.
export class Follower {
  constructor(version, onVersion) {
    this.version = version;
    this.onVersion = onVersion;
    setVersion(version);
    this.open();
    setInterval(() => this.look(), PAUSE);
  }

  open() {
    this.source?.close();
    this.source = new EventSource(address("page/events"));
    this.source.addEventListener("version", event => {
      setReachable(true);
      this.hear(JSON.parse(event.data).version);
    });
    // While it is gone it is asked every so often; the browser connects again by itself.
    this.source.onerror = () => { if (isReachable()) this.check(); };
  }

  hear(version) {
    if (version === this.version) return;
    this.version = version;
    setVersion(version);
    this.onVersion(version);
  }

  // Where events don't come, or the service was gone.
  look() {
    const isClosed = this.source.readyState === EventSource.CLOSED;
    if (!isReachable() || isClosed) this.check();
    if (isReachable() && isClosed) this.open();
  }

  async check() {
    try {
      this.hear((await ask("page/setting")).version);
    } catch (problem) {
      // It is asked again.
    }
  }
}
