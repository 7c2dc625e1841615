"use strict";
// How many points of each colour, as digits, a picture has: a PNG in base64. For tools/test page.
async function colours(png) {
    const picture = await createImageBitmap(new Blob([Uint8Array.from(atob(png), (it) => it.charCodeAt())]));
    const canvas = new OffscreenCanvas(picture.width, picture.height).getContext("2d");
    canvas.drawImage(picture, 0, 0);
    const found = {}, channels = canvas.getImageData(0, 0, picture.width, picture.height).data;
    for (let at = 0; at < channels.length; at += 4) {
        const colour = (channels[at] << 16 | channels[at + 1] << 8 | channels[at + 2]).toString(16).padStart(6, "0");
        found[colour] = (found[colour] ?? 0) + 1;
    }
    return found;
}
