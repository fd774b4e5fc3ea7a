// Trees, maps, strings and exceptions, which haxe compiles for neko.
class Tree {
	public var left:Tree;
	public var right:Tree;
	public var number:Int;

	public function new(depth:Int, number:Int) {
		this.number = number;
		if (depth > 0) {
			left = new Tree(depth - 1, 2 * number);
			right = new Tree(depth - 1, 2 * number + 1);
		}
	}

	public function sum():Int
		return (left == null ? 0 : left.sum()) + number % 7 + (right == null ? 0 : right.sum());
}

class Lines {
	static function words(count:Int):Int {
		var table = new haxe.ds.StringMap<Array<Int>>();
		for (k in 0...count) {
			var name = "word" + (k % 97);
			if (!table.exists(name)) table.set(name, []);
			table.get(name).push(k);
		}
		var all = [for (name in table.keys()) name + ":" + table.get(name).length];
		all.sort(Reflect.compare);
		return all.join(" ").length;
	}

	static function work(first:Int):Int {
		var sum = 0;
		for (k in 0...30) {
			sum += new Tree(10, first + k).sum() + words(1000);
			try {
				if (k % 3 == 0) throw "thrown " + k;
			} catch (text:String) {
				sum += text.length;
			}
			sum += haxe.Json.stringify({numbers: [for (n in 0...k) n], text: "t" + k}).length;
		}
		return sum;
	}

	static function main() {
		var kept = new Tree(12, 1);
		var answers = new sys.thread.Deque<String>();
		for (number in 0...4)
			sys.thread.Thread.create(() -> answers.add(number + " " + work(number)));
		var lines = [for (_ in 0...4) answers.pop(true)];
		lines.sort(Reflect.compare);
		for (line in lines) Sys.println(line);
		Sys.println(kept.sum());
	}
}
