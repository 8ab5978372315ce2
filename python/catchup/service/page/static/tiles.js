// The roads of tiles, as the service cuts them: kept, and looked through for the street under a point.

import { bytes } from "./service.js";
import { ZOOM } from "./world.js";

export const SIDE = 512;
const MOST_KEPT = 400;
const OTHER = 409;          // the status where the service has another map
const TRIES = 8, PAUSE = 250;

// A tile's pieces of streets: piece i has the places first[i] to first[i + 1] of `places`, x and y by turns, and a box.
class Tile {
  constructor(buffer) {
    const [points, pieces] = new Uint32Array(buffer, 0, 2), at = 8 + 8 * points;
    this.places = new Int32Array(buffer, 8, 2 * points);
    this.street = new Uint32Array(buffer, at, pieces);
    this.rank = new Uint8Array(buffer, at + 6 * pieces, pieces);
    this.first = new Uint32Array(pieces + 1);
    this.box = new Int32Array(4 * pieces);
    const size = new Uint16Array(buffer, at + 4 * pieces, pieces);
    for (let i = 0; i < pieces; i++) {
      this.first[i + 1] = this.first[i] + size[i];
      this.bound(i);
    }
  }

  bound(i) {
    let west = Infinity, north = Infinity, east = -Infinity, south = -Infinity;
    for (let at = 2 * this.first[i]; at < 2 * this.first[i + 1]; at += 2) {
      const x = this.places[at], y = this.places[at + 1];
      if (x < west) west = x;
      if (x > east) east = x;
      if (y < north) north = y;
      if (y > south) south = y;
    }
    this.box.set([west, north, east, south], 4 * i);
  }

  // The pieces whose boxes touch a box.
  inside(west, north, east, south) {
    const found = [], { box } = this;
    for (let i = 0, at = 0; i < this.street.length; i++, at += 4) {
      if (box[at] <= east && box[at + 2] >= west && box[at + 1] <= south && box[at + 3] >= north) found.push(i);
    }
    return found;
  }

  // Puts a street into `found` that is nearer to a point than the square of its `least`.
  nearest(x, y, within, found) {
    for (const i of this.inside(x - within, y - within, x + within, y + within)) {
      for (let at = 2 * this.first[i]; at < 2 * this.first[i + 1] - 2; at += 2) {
        const far = squareTo(x, y, this.places, at);
        if (far < found.least) Object.assign(found, { least: far, street: this.street[i] });
      }
    }
  }
}

export class Tiles {
  // `map` is what the service says of the network: its name, and the zooms of its levels. Calls back where the service
  // has another map.
  constructor(map, onOther) {
    this.map = map;
    this.onOther = onOther;
    this.kept = new Map();
  }

  // The level of roads that a zoom shows.
  level(zoom) {
    const levels = this.map.levels;
    return levels.find(level => level <= zoom) ?? levels[levels.length - 1];
  }

  // The tile that holds a tile of Leaflet's, whose zoom may be greater.
  at({ x, y, z }) {
    const level = this.level(z), by = 2 ** (level - z);
    return { z: level, column: Math.floor(x * by), row: Math.floor(y * by), count: Math.max(by, 1) };
  }

  get(level, column, row) {
    const key = `${level}/${column}/${row}`;
    if (!this.kept.has(key)) {
      if (this.kept.size >= MOST_KEPT) this.kept.delete(this.kept.keys().next().value);
      const asked = this.ask(key).then(({ data }) => {
        const tile = new Tile(data.buffer);
        asked.tile = tile;
        return tile;
      });
      // One that didn't come is asked for again.
      asked.catch(() => this.kept.delete(key));
      this.kept.set(key, asked);
    }
    return this.kept.get(key);
  }

  // The bytes of a tile. The service's workers follow one another within a second, so one may still have the map before.
  async ask(key) {
    for (let left = TRIES; ; left--) {
      try {
        return await bytes(`page/roads/${key}`, { of: this.map.name });
      } catch (problem) {
        if (problem.status === OTHER && !left) this.onOther();
        if (problem.status !== OTHER || !left) throw problem;
      }
      await new Promise(resolve => { setTimeout(resolve, PAUSE); });
    }
  }

  // All that a tile of Leaflet's shows: mostly one, and where a level is of a greater zoom than the map some.
  async all(coords) {
    const { z, column, row, count } = this.at(coords), asked = [];
    for (let i = 0; i < count; i++) for (let j = 0; j < count; j++) asked.push(this.get(z, column + i, row + j));
    return Promise.all(asked);
  }

  // The street next to a point of the world within some distance, which may lie in another tile than the point does; -1
  // where there is none, or none is drawn yet.
  street(x, y, zoom, within) {
    const level = this.level(zoom), shift = SIDE * 2 ** (ZOOM - level);
    const found = { street: -1, least: within * within };
    const [west, north, east, south] = [x - within, y - within, x + within, y + within]
      .map(side => Math.floor(side / shift));
    for (let column = west; column <= east; column++) {
      for (let row = north; row <= south; row++) {
        this.kept.get(`${level}/${column}/${row}`)?.tile?.nearest(x, y, within, found);
      }
    }
    return found.street;
  }
}

// The square of how far a point is from a segment.
function squareTo(x, y, places, at) {
  const dx = places[at + 2] - places[at], dy = places[at + 3] - places[at + 1], length = dx * dx + dy * dy;
  const part = length ? Math.min(Math.max(((x - places[at]) * dx + (y - places[at + 1]) * dy) / length, 0), 1) : 0;
  return (x - places[at] - part * dx) ** 2 + (y - places[at + 1] - part * dy) ** 2;
}
