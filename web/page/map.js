// The open journey on a map: lines and stops as GeoJSON, over tiles if an address is given.

// The points of an encoded polyline, as GeoJSON has them: longitude, then latitude.
const points = (line) => {
    const numbers = [];
    let number = 0;
    let shift = 0;
    for (const character of line.points) {
        const bits = character.charCodeAt(0) - 63;
        number += (bits & 31) * 2 ** shift;
        shift += 5;
        if (bits < 32) {
            numbers.push(number % 2 ? -(number + 1) / 2 : number / 2);
            number = shift = 0;
        }
    }
    const found = [];
    let [latitude, longitude] = [0, 0];
    for (let at = 0; at + 1 < numbers.length; at += 2) {
        [latitude, longitude] = [latitude + numbers[at], longitude + numbers[at + 1]];
        found.push([longitude / 10 ** line.precision, latitude / 10 ** line.precision]);
    }
    return found;
};

const feature = (geometry, properties) => ({ type: "Feature", geometry, properties });

const legLine = (leg) => {
    const coordinates = points(leg.legGeometry);
    const kind = leg.mode === "WALK" ? "walk" : "ride";
    const name = kind === "walk" ? `Walk to ${leg.to.name}` : `${leg.displayName || leg.tripId}: ${leg.from.name} to ${leg.to.name}`;
    return coordinates.length > 1 ? [feature({ type: "LineString", coordinates }, { kind, name })] : [];
};

const stopPoint = (place, kind) => (place.lon === undefined || place.lat === undefined ? [] : [
    feature({ type: "Point", coordinates: [place.lon, place.lat] }, { kind, name: place.name }),
]);

// A journey as a GeoJSON collection: its legs' lines, and above them its stops.
const collection = (journey, from, to) => ({
    type: "FeatureCollection",
    features: [
        ...journey.legs.flatMap(legLine),
        ...journey.legs.slice(1).flatMap((leg) => stopPoint(leg.from, "stop")),
        ...stopPoint(journey.legs.length ? journey.legs[0].from : from, "end"),
        ...stopPoint(journey.legs.length ? journey.legs[journey.legs.length - 1].to : to, "end"),
    ],
});

const style = ({ properties }) => ({
    className: properties.kind, weight: 5, opacity: 1, dashArray: properties.kind === "walk" ? "2 8" : null,
});

const circle = ({ properties }, at) => L.circleMarker(at, {
    className: properties.kind, radius: properties.kind === "end" ? 8 : 6, weight: 3, opacity: 1, fillOpacity: 1,
});

const text = (words) => document.createTextNode(words);

export class JourneyMap {
    constructor(element, note, settings) {
        const still = matchMedia("(prefers-reduced-motion: reduce)").matches;
        this.note = note;
        this.map = L.map(element, { zoomAnimation: !still, fadeAnimation: !still, center: [0, 0], zoom: 1, zoomSnap: 0.5 });
        this.map.attributionControl.setPrefix(false);
        L.control.scale({ imperial: false }).addTo(this.map);
        if (settings.tiles) this.addTiles(settings);
        this.layer = null;
        this.map.on("resize", () => this.fit());
    }

    addTiles({ tiles, attribution }) {
        const named = document.createElement("span");
        named.textContent = attribution || "";
        L.tileLayer(tiles, { attribution: named.innerHTML, maxZoom: 19 }).addTo(this.map);
        this.map.getContainer().classList.add("tiled");
    }

    clear() {
        if (this.layer) this.layer.remove();
        this.layer = null;
    }

    show(journey, from, to) {
        this.clear();
        const drawn = collection(journey, from, to);
        this.layer = L.geoJSON(drawn, { style, pointToLayer: circle, onEachFeature: (it, layer) => {
            const named = document.createElement("span");
            named.append(text(it.properties.name));
            layer.bindTooltip(named);
        } }).addTo(this.map);
        this.note.textContent = this.fit()
            ? "The map shows the journey that is open in the list. The list has all that the map has, in words."
            : "The feed has no positions for the stops of this journey, so the map shows nothing.";
    }

    // Moves the map to the journey, also if a phone is turned. False if there is nothing to show.
    fit() {
        const bounds = this.layer && this.layer.getBounds();
        const isShown = Boolean(bounds) && bounds.isValid();
        if (isShown) this.map.fitBounds(bounds, { padding: [30, 30], maxZoom: 16 });
        return isShown;
    }
}
