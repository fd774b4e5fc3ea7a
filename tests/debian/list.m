/* Objects of Objective-C, which the collector frees. */
#include <objc/objc.h>
#include <objc/runtime.h>
#include <stdio.h>

__attribute__((objc_root_class))
@interface Node { Class isa; @public Node *next; int number; }
+ (Node *)make;
- (int)number;
@end
@implementation Node
+ (Node *)make { return class_createInstance(self, 0); }
- (int)number { return number; }
@end

int main(void)
{
    Node *list = nil;
    long sum = 0;
    for (int k = 0; k < 500000; k++) {
        Node *one = [Node make];
        one->number = k;
        one->next = k % 1000 == 0 ? nil : list;
        list = one;
        sum += [one number];
    }
    int length = 0;
    for (Node *at = list; at; at = at->next) length++;
    printf("%ld %d\n", sum, length);
    return 0;
}
