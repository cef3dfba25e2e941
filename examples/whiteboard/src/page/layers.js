// The board's two layers follow the sight. While it moves, the browser moves them as they were painted last; once it rests they are painted where they are.
// They are larger than the stage, and painted sooner if one of their edges would come into it.
import { at } from './elements.js';
import { sight, whenSeen } from './sight.js';

const MARGIN = 128, RESTS_AFTER = 150, DOTS = 20;       // pixels on each side, as in the style sheet; milliseconds; units between two dots
const painted = { x: 0, y: 0, scale: 1 }, layers = ['board', 'over'], scenes = ['scene', 'overscene'];
let resting = null;

whenSeen(() => {
  clearTimeout(resting);
  const shift = shiftNow();
  if (!covers(shift)) { paintNow(); return; }
  for (const id of layers) at(id).style.transform = `translate(${shift.x}px, ${shift.y}px) scale(${shift.scale})`;
  resting = setTimeout(paintNow, RESTS_AFTER);
});

// From where a point of the stage was painted to where it is now.
function shiftNow() {
  const scale = sight.scale / painted.scale;
  return { x: sight.x - painted.x * scale, y: sight.y - painted.y * scale, scale };
}

function covers({ x, y, scale }) {
  const { clientWidth, clientHeight } = at('stage'), least = -MARGIN * scale, most = (length) => (length + MARGIN) * scale;
  return least + x <= 0 && least + y <= 0 && most(clientWidth) + x >= clientWidth && most(clientHeight) + y >= clientHeight && scale < 2;
}

function paintNow() {
  const { x, y, scale } = Object.assign(painted, sight), dots = DOTS * scale * (scale < 0.5 ? 5 : 1);
  for (const id of scenes) at(id).setAttribute('transform', `translate(${x + MARGIN} ${y + MARGIN}) scale(${scale})`);
  for (const id of layers) at(id).style.transform = '';
  Object.assign(at('board').style, { backgroundPosition: `${x + MARGIN}px ${y + MARGIN}px`, backgroundSize: `${dots}px ${dots}px` });
}
paintNow();
