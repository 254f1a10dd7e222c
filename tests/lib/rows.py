"""Worked examples: the requests of several clients in turn, and the exact reply to each. A line has a client's number,
its request, an arrow and the reply."""

JOINED = """
1 ["join","r"] -> ["joined",0,1]
"""
CREATED = JOINED + """
1 ["new",1,[],"rect",[["x",0]]] -> ["made",1,[1,1]]
"""
SHOWN = CREATED + """
1 ["show",[1,1]] -> ["versions",2,[1,1],"rect",[[[],[["x",0]]]]]
"""
ONE_PUT = CREATED + """
2 ["join","r"] -> ["joined",2,2]
1 ["put",2,[[1,1]],[1,1],[],[["x",5]]] -> ["taken",3,[[]]]
"""
TWO_VERSIONS = ONE_PUT + """
2 ["put",1,[[1,1]],[1,1],[],[["x",9]]] -> ["taken",4,[[[1,2]],[[2,1]]]]
1 ["show",[1,1]] -> ["versions",5,[1,1],"rect",[[[[1,2]],[["x",5]]],[[[2,1]],[["x",9]]]]]
"""
IN_BOTH = TWO_VERSIONS + """
3 ["join","r"] -> ["joined",5,3]
3 ["put",1,[[1,1]],[1,1],[],[["fill","red"]]] -> ["taken",6,[[[1,2]],[[2,1]]]]
1 ["show",[1,1]] -> ["versions",7,[1,1],"rect",[[[[1,2]],[["fill","red"],["x",5]]],[[[2,1]],[["fill","red"],["x",9]]]]]
"""
INHERITED = TWO_VERSIONS + """
1 ["put",3,[[1,2],[2,1]],[1,1],[[1,2]],[["fill","red"]]] -> ["taken",5,[[[1,2],[1,3]],[[2,1]]]]
2 ["put",2,[[1,2],[2,1]],[1,1],[[2,1]],[["line",3]]] -> ["taken",6,[[[1,2],[1,3]],[[2,1],[2,2]]]]
1 ["show",[1,1]] -> ["versions",7,[1,1],"rect",[[[[1,2],[1,3]],[["fill","red"],["x",5]]],[[[2,1],[2,2]],[["line",3],["x",9]]]]]
"""
FIVE_PUTS = """
1 ["join","r"] -> ["joined",0,1]
1 ["new",1,[],"rect",[]] -> ["made",1,[1,1]]
2 ["join","r"] -> ["joined",2,2]
3 ["join","r"] -> ["joined",3,3]
4 ["join","r"] -> ["joined",4,4]
5 ["join","r"] -> ["joined",5,5]
1 ["put",2,[[1,1]],[1,1],[],[["x",1]]] -> ["taken",6,[[]]]
2 ["put",1,[[1,1]],[1,1],[],[["y",2]]] -> ["taken",7,[[]]]
3 ["put",1,[[1,1]],[1,1],[],[["x",7]]] -> ["taken",8,[[[1,2]],[[3,1]]]]
4 ["put",1,[[1,1]],[1,1],[],[["y",8]]] -> ["taken",9,[[[1,2],[2,1]],[[1,2],[4,1]],[[2,1],[3,1]],[[3,1],[4,1]]]]
5 ["put",1,[[1,1]],[1,1],[],[["x",9]]] -> ["taken",10,[[[1,2],[2,1]],[[1,2],[4,1]],[[2,1],[3,1]],[[2,1],[5,1]],[[3,1],[4,1]],[[4,1],[5,1]]]]
"""
SIX_VERSIONS = FIVE_PUTS + """
1 ["show",[1,1]] -> ["versions",11,[1,1],"rect",[[[[1,2],[2,1]],[["x",1],["y",2]]],[[[1,2],[4,1]],[["x",1],["y",8]]],[[[2,1],[3,1]],[["x",7],["y",2]]],[[[2,1],[5,1]],[["x",9],["y",2]]],[[[3,1],[4,1]],[["x",7],["y",8]]],[[[4,1],[5,1]],[["x",9],["y",8]]]]]
"""
NAMES_OF_NO_GROUP = FIVE_PUTS + """
1 ["put",3,[[1,2],[2,1],[3,1],[4,1],[5,1]],[1,1],[[1,2]],[["z",1]]] -> ["no",11,12,"no-such-version"]
1 ["put",3,[[1,2],[2,1],[3,1],[4,1],[5,1]],[1,1],[[1,2],[3,1]],[["z",1]]] -> ["no",11,12,"no-such-version"]
1 ["put",3,[[1,2],[2,1],[3,1],[4,1],[5,1]],[1,1],[],[["z",1]]] -> ["no",11,12,"no-such-version"]
5 ["put",2,[[1,2],[2,1],[5,1]],[1,1],[[1,2],[2,1]],[["z",2]]] -> ["no",11,12,"no-such-version"]
5 ["put",2,[[1,2],[2,1],[5,1]],[1,1],[[5,1]],[["z",2]]] -> ["taken",11,[[[1,2],[2,1]],[[1,2],[4,1]],[[2,1],[3,1]],[[2,1],[5,1],[5,2]],[[3,1],[4,1]],[[4,1],[5,1]]]]
"""
SAME_VALUE = ONE_PUT + """
2 ["put",1,[[1,1]],[1,1],[],[["x",5]]] -> ["taken",4,[[]]]
1 ["show",[1,1]] -> ["versions",5,[1,1],"rect",[[[],[["x",5]]]]]
"""
NOT_SEEN_RIGHT = TWO_VERSIONS + """
3 ["join","r"] -> ["joined",5,3]
3 ["put",1,[[2,1]],[1,1],[],[["x",1]]] -> ["no",6,10,"not-closed"]
3 ["put",1,[[1,3]],[1,1],[],[["x",1]]] -> ["no",6,9,"ahead"]
3 ["put",1,[],[1,1],[],[["x",1]]] -> ["no",6,11,"no-such-object"]
1 ["put",2,[[1,1]],[1,1],[],[["x",1]]] -> ["no",6,7,"wrong-seq"]
1 ["put",3,[[1,1]],[1,1],[],[["x",1]]] -> ["no",6,8,"own-count"]
"""
TWO_ROOMS = """
1 ["join","a"] -> ["joined",0,1]
2 ["join","b"] -> ["joined",0,1]
3 ["join","a"] -> ["joined",1,2]
4 ["join","b"] -> ["joined",1,2]
"""
NOT_THERE = TWO_ROOMS + """
1 ["join","zz"] -> ["no",0,3,"already-joined"]
5 ["join","zz"] -> ["no",0,4,"no-such-room"]
5 ["show",[1,1]] -> ["no",0,2,"not-joined"]
"""
NO_REQUESTS = TWO_VERSIONS + f"""
1 ["join" -> ["no",0,1,"bad-message"]
1  -> ["no",0,1,"bad-message"]
1 {"[" * 128}{"]" * 128} -> ["no",0,1,"bad-message"]
1 ["set"] -> ["no",0,1,"bad-message"]
1 ["put",3,[[1,2],[2,1]],[1,1],[[1,2]],[["X",1]]] -> ["no",0,1,"bad-message"]
1 ["put",3,[[2,1],[1,2]],[1,1],[[1,2]],[["x",1]]] -> ["no",0,1,"bad-message"]
1 ["show",[257,1]] -> ["no",0,1,"bad-message"]
1 ["show",[9,9]] -> ["no",5,11,"no-such-object"]
1 ["put",3,[[1,2],[2,1]],[1,1],[],[["x",1]]] -> ["no",5,12,"no-such-version"]
1 ["pull",99] -> ["no",5,17,"too-far"]
1  [ "leave" ]  -> ["left",5]
"""
PAGES = TWO_VERSIONS + """
1 ["list",0] -> ["objects",5,0,1,[[[1,1],"rect"]]]
1 ["list",1] -> ["objects",5,1,1,[]]
1 ["list",2] -> ["no",5,17,"too-far"]
1 ["pull",4] -> ["entries",5,4,[["put",[2,1],[[1,1]],[1,1],[],[["x",9]]]]]
1 ["pull",5] -> ["entries",5,5,[]]
2 ["leave"] -> ["left",5]
2 ["join","r"] -> ["joined",5,3]
"""
PAGES_OF_THE_RECORD = """
1 ["join","r"] -> ["joined",0,1]
1 ["new",1,[],"rect",[["x",5]]] -> ["made",1,[1,1]]
1 ["pull",1] -> ["entries",2,1,[["new",[1,1],[],"rect",[["x",5]]]]]
1 ["pull",0] -> ["entries",2,0,[["join",1],["new",[1,1],[],"rect",[["x",5]]]]]
1 ["pull",1] -> ["entries",2,1,[["new",[1,1],[],"rect",[["x",5]]]]]
2 ["join","r"] -> ["joined",2,2]
1 ["pull",0] -> ["entries",3,0,[["join",1],["new",[1,1],[],"rect",[["x",5]]],["join",2]]]
1 ["pull",2] -> ["entries",3,2,[["join",2]]]
1 ["pull",3] -> ["entries",3,3,[]]
"""
WAITS = TWO_VERSIONS + """
1 ["wait",99] -> ["no",5,17,"too-far"]
1 ["wait",4] -> ["entries",5,4,[["put",[2,1],[[1,1]],[1,1],[],[["x",9]]]]]
3 ["wait",0] -> ["no",0,2,"not-joined"]
"""
WAIT_FOR_MORE = ONE_PUT + """
1 ["wait",4] -> ["entries",4,4,[]]
"""
NOTES = r"""
1 ["join","r"] -> ["joined",0,1]
2 ["join","r"] -> ["joined",1,2]
1 ["notes"] -> ["notes",2,[]]
2 ["note","at 5, 9"] -> ["notes",2,[[2,"at 5, 9"]]]
1 ["note","\u00e9\u0001\""] -> ["notes",2,[[1,"é\u0001\""],[2,"at 5, 9"]]]
2 ["notes"] -> ["notes",2,[[1,"é\u0001\""],[2,"at 5, 9"]]]
1 ["new",1,[],"rect",[]] -> ["made",2,[1,1]]
1 ["note","b"] -> ["notes",3,[[1,"b"],[2,"at 5, 9"]]]
3 ["notes"] -> ["no",0,2,"not-joined"]
3 ["note","x"] -> ["no",0,2,"not-joined"]
3 ["join","a"] -> ["joined",0,1]
3 ["note","of another room"] -> ["notes",1,[[1,"of another room"]]]
2 ["notes"] -> ["notes",3,[[1,"b"],[2,"at 5, 9"]]]
2 ["leave"] -> ["left",3]
1 ["notes"] -> ["notes",3,[[1,"b"]]]
2 ["back","r",2] -> ["back",3,2,0]
2 ["notes"] -> ["notes",3,[[1,"b"]]]
1 ["note",""] -> ["notes",3,[]]
1 ["pull",0] -> ["entries",3,0,[["join",1],["join",2],["new",[1,1],[],"rect",[]]]]
"""
REPLACED = ONE_PUT + """
1 ["put",3,[[1,2]],[1,1],[],[["x",6]]] -> ["taken",4,[[]]]
2 ["put",1,[[1,1]],[1,1],[],[["x",5]]] -> ["taken",5,[[[1,3]],[[2,1]]]]
1 ["show",[1,1]] -> ["versions",6,[1,1],"rect",[[[[1,3]],[["x",6]]],[[[2,1]],[["x",5]]]]]
"""
OTHER_LETTERS = r"""
1 ["join","r"] -> ["joined",0,1]
1 ["new",1,[],"text",[["t","\u00e9\u20AC\ud83d\ude00\/\u0041"],["z",-9223372036854775808]]] -> ["made",1,[1,1]]
1 ["put",2,[[1,1]],[1,1],[],[["q","\"\\\b\f\n\r\t\u0001 ö"]]] -> ["taken",2,[[]]]
1 ["show",[1,1]] -> ["versions",3,[1,1],"text",[[[],[["q","\"\\\b\f\n\r\t\u0001 ö"],["t","é€😀/A"],["z",-9223372036854775808]]]]]
"""
TWO_AGAINST_ONE = TWO_VERSIONS + """
3 ["join","r"] -> ["joined",5,3]
3 ["put",1,[[1,1]],[1,1],[],[["x",9]]] -> ["taken",6,[[[1,2]],[[2,1],[3,1]]]]
1 ["show",[1,1]] -> ["versions",7,[1,1],"rect",[[[[1,2]],[["x",5]]],[[[2,1],[3,1]],[["x",9]]]]]
"""
AS_THE_AUTHOR_SAW = TWO_VERSIONS + """
3 ["join","r"] -> ["joined",5,3]
3 ["put",1,[[1,2]],[1,1],[],[["fill","red"]]] -> ["taken",6,[[[1,2],[3,1]],[[2,1]]]]
1 ["show",[1,1]] -> ["versions",7,[1,1],"rect",[[[[1,2],[3,1]],[["fill","red"],["x",5]]],[[[2,1]],[["x",9]]]]]
"""
AGAINST_A_BASE = ONE_PUT + """
1 ["put",3,[[1,2]],[1,1],[],[["fill","red"]]] -> ["taken",4,[[]]]
2 ["put",1,[[1,1]],[1,1],[],[["x",9]]] -> ["taken",5,[[[1,2],[1,3]],[[2,1]]]]
1 ["show",[1,1]] -> ["versions",6,[1,1],"rect",[[[[1,2],[1,3]],[["fill","red"],["x",5]]],[[[2,1]],[["x",9]]]]]
"""
ONE_GOES_ON = TWO_VERSIONS + """
2 ["put",2,[[1,1],[2,1]],[1,1],[],[["line",3]]] -> ["taken",5,[[[1,2]],[[2,1],[2,2]]]]
1 ["show",[1,1]] -> ["versions",6,[1,1],"rect",[[[[1,2]],[["x",5]]],[[[2,1],[2,2]],[["line",3],["x",9]]]]]
"""
OTHER_OPERATIONS = CREATED + """
1 ["put",2,[[1,1]],[1,1],[],[["x",5]]] -> ["taken",2,[[]]]
1 ["new",3,[[1,2]],"rect",[]] -> ["made",3,[1,3]]
1 ["put",4,[[1,3]],[1,1],[],[["x",7]]] -> ["taken",4,[[]]]
1 ["show",[1,1]] -> ["versions",5,[1,1],"rect",[[[],[["x",7]]]]]
"""
LAST_VALUES = """
1 ["join","r"] -> ["joined",0,1]
1 ["new",1,[],"rect",[["y",4],["x",3]]] -> ["made",1,[1,1]]
1 ["show",[1,1]] -> ["versions",2,[1,1],"rect",[[[],[["x",3],["y",4]]]]]
1 ["put",2,[[1,1]],[1,1],[],[["x",5]]] -> ["taken",2,[[]]]
1 ["put",3,[[1,2]],[1,1],[],[["x",6]]] -> ["taken",3,[[]]]
1 ["put",4,[[1,3]],[1,1],[],[["w",1]]] -> ["taken",4,[[]]]
1 ["show",[1,1]] -> ["versions",5,[1,1],"rect",[[[],[["w",1],["x",6],["y",4]]]]]
"""
CREATIONS = CREATED + """
1 ["new",1,[],"rect",[]] -> ["no",2,7,"wrong-seq"]
1 ["new",2,[],"rect",[]] -> ["no",2,8,"own-count"]
1 ["new",2,[[1,1],[2,1]],"rect",[]] -> ["no",2,9,"ahead"]
2 ["join","r"] -> ["joined",2,2]
3 ["join","r"] -> ["joined",3,3]
2 ["new",1,[[1,1]],"rect",[]] -> ["made",4,[2,1]]
3 ["new",1,[[2,1]],"rect",[]] -> ["no",5,10,"not-closed"]
3 ["new",1,[[1,1],[2,1]],"rect",[]] -> ["made",5,[3,1]]
3 ["show",[3,1]] -> ["versions",6,[3,1],"rect",[[[],[]]]]
3 ["show",[9,9]] -> ["no",6,11,"no-such-object"]
3 ["leave"] -> ["left",6]
3 ["join","r"] -> ["joined",6,4]
"""
FIRST_CAUSE = """
1 ["join","r"] -> ["joined",0,1]
2 ["join","r"] -> ["joined",1,2]
3 ["join","r"] -> ["joined",2,3]
1 ["new",1,[],"rect",[]] -> ["made",3,[1,1]]
1 ["new",2,[[1,1]],"rect",[]] -> ["made",4,[1,2]]
2 ["new",1,[[1,2]],"rect",[]] -> ["made",5,[2,1]]
1 ["new",3,[[1,2],[2,1]],"rect",[]] -> ["made",6,[1,3]]
1 ["new",3,[[1,2],[2,1]],"rect",[]] -> ["no",7,7,"wrong-seq"]
1 ["new",5,[[1,4]],"rect",[]] -> ["no",7,7,"wrong-seq"]
3 ["new",2,[[3,1]],"rect",[]] -> ["no",7,7,"wrong-seq"]
1 ["new",4,[[2,1]],"rect",[]] -> ["no",7,8,"own-count"]
1 ["new",4,[[1,4],[2,9]],"rect",[]] -> ["no",7,8,"own-count"]
3 ["new",1,[[3,1]],"rect",[]] -> ["no",7,8,"own-count"]
3 ["new",1,[[2,2]],"rect",[]] -> ["no",7,9,"ahead"]
3 ["new",1,[[4,1]],"rect",[]] -> ["no",7,9,"ahead"]
3 ["new",1,[[1,3],[2,2]],"rect",[]] -> ["no",7,9,"ahead"]
1 ["new",4,[[1,3]],"rect",[]] -> ["no",7,10,"not-closed"]
3 ["new",1,[[2,1]],"rect",[]] -> ["no",7,10,"not-closed"]
3 ["new",1,[[1,1],[2,1]],"rect",[]] -> ["no",7,10,"not-closed"]
3 ["new",1,[[1,3]],"rect",[]] -> ["no",7,10,"not-closed"]
3 ["new",1,[[1,1]],"rect",[]] -> ["made",7,[3,1]]
1 ["new",4,[[1,3],[2,1]],"rect",[]] -> ["made",8,[1,4]]
2 ["new",2,[[1,2],[2,1]],"rect",[]] -> ["made",9,[2,2]]
"""
IN_TURN = """
1 ["join","a"] -> ["joined",0,1]
3 ["join","b"] -> ["joined",0,1]
1 ["new",1,[],"rect",[["x",0]]] -> ["made",1,[1,1]]
3 ["new",1,[],"rect",[["x",0]]] -> ["made",1,[1,1]]
1 ["show",[1,1]] -> ["versions",2,[1,1],"rect",[[[],[["x",0]]]]]
3 ["show",[1,1]] -> ["versions",2,[1,1],"rect",[[[],[["x",0]]]]]
2 ["join","a"] -> ["joined",2,2]
4 ["join","b"] -> ["joined",2,2]
1 ["put",2,[[1,1]],[1,1],[],[["x",5]]] -> ["taken",3,[[]]]
3 ["put",2,[[1,1]],[1,1],[],[["x",5]]] -> ["taken",3,[[]]]
2 ["put",1,[[1,1]],[1,1],[],[["x",9]]] -> ["taken",4,[[[1,2]],[[2,1]]]]
4 ["put",1,[[1,1]],[1,1],[],[["x",9]]] -> ["taken",4,[[[1,2]],[[2,1]]]]
1 ["show",[1,1]] -> ["versions",5,[1,1],"rect",[[[[1,2]],[["x",5]]],[[[2,1]],[["x",9]]]]]
3 ["show",[1,1]] -> ["versions",5,[1,1],"rect",[[[[1,2]],[["x",5]]],[[[2,1]],[["x",9]]]]]
"""
TO_ANOTHER_ROOM = TWO_ROOMS + """
1 ["leave"] -> ["left",2]
1 ["list",0] -> ["no",0,2,"not-joined"]
1 no message -> ["no",0,1,"bad-message"]
1 ["join","b"] -> ["joined",2,3]
1 ["new",1,[],"rect",[]] -> ["made",3,[3,1]]
1 ["leave"] -> ["left",4]
1 ["join","a"] -> ["joined",2,3]
1 ["show",[3,1]] -> ["no",3,11,"no-such-object"]
"""

BACK = ONE_PUT + """
3 ["back","r",1] -> ["no",4,20,"site-in-use"]
3 ["show",[1,1]] -> ["no",0,2,"not-joined"]
1 ["leave"] -> ["left",4]
3 ["back","r",1] -> ["back",4,1,2]
1 ["back","r",1] -> ["no",4,20,"site-in-use"]
3 ["put",2,[[1,1]],[1,1],[],[["x",6]]] -> ["no",4,7,"wrong-seq"]
3 ["put",3,[[1,2]],[1,1],[],[["x",6]]] -> ["taken",4,[[]]]
2 ["pull",3] -> ["entries",5,3,[["put",[1,2],[[1,1]],[1,1],[],[["x",5]]],["put",[1,3],[[1,2]],[1,1],[],[["x",6]]]]]
2 ["leave"] -> ["left",5]
1 ["back","r",2] -> ["back",5,2,0]
1 ["put",1,[[1,1]],[1,1],[],[["x",9]]] -> ["taken",5,[[[1,2],[1,3]],[[2,1]]]]
1 ["leave"] -> ["left",6]
1 ["back","r",2] -> ["back",6,2,1]
2 ["join","r"] -> ["joined",6,3]
3 ["leave"] -> ["left",7]
3 ["back","r",1] -> ["back",7,1,3]
"""
NOT_BACK = ONE_PUT + """
1 ["back","r",1] -> ["no",0,3,"already-joined"]
1 ["back","r",2] -> ["no",0,3,"already-joined"]
1 ["back","zz",9] -> ["no",0,3,"already-joined"]
1 ["back","r",257] -> ["no",0,1,"bad-message"]
3 ["back","r",0] -> ["no",0,1,"bad-message"]
3 ["back","r",257] -> ["no",0,1,"bad-message"]
3 ["back","zz",257] -> ["no",0,1,"bad-message"]
3 ["back","R",1] -> ["no",0,1,"bad-message"]
3 ["back","",1] -> ["no",0,1,"bad-message"]
3 ["back","r"] -> ["no",0,1,"bad-message"]
3 ["back","r",1,2] -> ["no",0,1,"bad-message"]
3 ["back","r","1"] -> ["no",0,1,"bad-message"]
3 ["back","r",1.0] -> ["no",0,1,"bad-message"]
3 ["back",1,"r"] -> ["no",0,1,"bad-message"]
3 ["back","zz",1] -> ["no",0,4,"no-such-room"]
3 ["back","zz",9] -> ["no",0,4,"no-such-room"]
3 ["back","r",3] -> ["no",4,19,"no-such-site"]
3 ["back","r",256] -> ["no",4,19,"no-such-site"]
3 ["back","r",2] -> ["no",4,20,"site-in-use"]
2 ["leave"] -> ["left",4]
2 ["back","r",3] -> ["no",4,19,"no-such-site"]
3  [ "back" , "r" , 2 ]  -> ["back",4,2,0]
3 ["pull",4] -> ["entries",4,4,[]]
"""
BACK_IN_TWO_ROOMS = TWO_ROOMS + """
5 ["back","a",3] -> ["no",2,19,"no-such-site"]
5 ["back","a",2] -> ["no",2,20,"site-in-use"]
3 ["leave"] -> ["left",2]
5 ["back","b",2] -> ["no",2,20,"site-in-use"]
5 ["back","a",2] -> ["back",2,2,0]
3 ["back","a",2] -> ["no",2,20,"site-in-use"]
4 ["new",1,[],"rect",[]] -> ["made",2,[2,1]]
4 ["leave"] -> ["left",3]
3 ["back","b",2] -> ["back",3,2,1]
4 ["back","a",1] -> ["no",2,20,"site-in-use"]
5 ["show",[2,1]] -> ["no",2,11,"no-such-object"]
3 ["show",[2,1]] -> ["versions",3,[2,1],"rect",[[[],[]]]]
"""
THREE_SIZES = """
1 ["join","b"] -> ["joined",0,1]
2 ["join","b"] -> ["joined",1,2]
3 ["join","b"] -> ["joined",2,3]
4 ["join","c"] -> ["joined",0,1]
3 ["new",1,[],"rect",[["x",0]]] -> ["made",3,[3,1]]
4 ["list",0] -> ["objects",1,0,0,[]]
1 ["list",0] -> ["objects",4,0,1,[[[3,1],"rect"]]]
5 ["back","a",1] -> ["no",0,19,"no-such-site"]
5 ["back","b",2] -> ["no",4,20,"site-in-use"]
2 ["leave"] -> ["left",4]
4 ["leave"] -> ["left",1]
2 ["back","c",1] -> ["back",1,1,0]
4 ["back","b",2] -> ["back",4,2,0]
4 ["show",[3,1]] -> ["versions",4,[3,1],"rect",[[[],[["x",0]]]]]
2 ["show",[3,1]] -> ["no",1,11,"no-such-object"]
5 ["join","a"] -> ["joined",0,1]
5 ["pull",0] -> ["entries",1,0,[["join",1]]]
"""

TWO_KEYS = ONE_PUT + """
2 ["put",1,[[1,1]],[1,1],[],[["x",5],["fill","red"]]] -> ["taken",4,[[]]]
1 ["show",[1,1]] -> ["versions",5,[1,1],"rect",[[[],[["fill","red"],["x",5]]]]]
2 ["pull",4] -> ["entries",5,4,[["put",[2,1],[[1,1]],[1,1],[],[["x",5],["fill","red"]]]]]
"""
SECOND_KEY_CONFLICTS = ONE_PUT + """
2 ["put",1,[[1,1]],[1,1],[],[["fill","red"],["x",9]]] -> ["taken",4,[[[1,2]],[[2,1]]]]
1 ["show",[1,1]] -> ["versions",5,[1,1],"rect",[[[[1,2]],[["x",5]]],[[[2,1]],[["fill","red"],["x",9]]]]]
"""
OLD_FORM = ONE_PUT + """
2 ["set",1,[[1,1]],[1,1],[],"x",9] -> ["taken",4,[[[1,2]],[[2,1]]]]
1 ["pull",4] -> ["entries",5,4,[["put",[2,1],[[1,1]],[1,1],[],[["x",9]]]]]
"""
NO_PUTS = ONE_PUT + """
2 ["put",1,[[1,1]],[1,1],[],[]] -> ["no",0,1,"bad-message"]
2 ["put",1,[[1,1]],[1,1],[],[["x",1],["x",1]]] -> ["no",0,1,"bad-message"]
2 ["put",1,[[1,1]],[1,1],[],[["y",1],["x",1],["y",2]]] -> ["no",0,1,"bad-message"]
2 ["put",1,[[1,1]],[1,1],[],[["x",1],["Y",1]]] -> ["no",0,1,"bad-message"]
2 ["put",1,[[1,1]],[1,1],[],[["k1",1],["k2",1],["k3",1],["k4",1],["k5",1],["k6",1],["k7",1],["k8",1],["k9",1],["k10",1],["k11",1],["k12",1],["k13",1],["k14",1],["k15",1],["k16",1],["k17",1]]] -> ["no",0,1,"bad-message"]
2 ["put",1,[[1,1]],[1,1],[],["x",1]] -> ["no",0,1,"bad-message"]
2 ["drop",1,[[1,1]],[1,1],[],[]] -> ["no",0,1,"bad-message"]
2 ["drop",1,[[1,1]],[1,1]] -> ["no",0,1,"bad-message"]
2 ["put",1,[[1,1]],[1,1],[],[["k1",1],["k2",1],["k3",1],["k4",1],["k5",1],["k6",1],["k7",1],["k8",1],["k9",1],["k10",1],["k11",1],["k12",1],["k13",1],["k14",1],["k15",1],["k16",1]]] -> ["taken",4,[[]]]
"""
DROPPED = ONE_PUT + """
2 ["drop",1,[[1,2]],[1,1],[]] -> ["taken",4,[[]]]
1 ["show",[1,1]] -> ["versions",5,[1,1],"rect",[[[],"gone"]]]
2 ["put",2,[[1,2],[2,1]],[1,1],[],[["x",7]]] -> ["no",5,18,"gone"]
2 ["drop",2,[[1,2],[2,1]],[1,1],[]] -> ["no",5,18,"gone"]
2 ["pull",4] -> ["entries",5,4,[["drop",[2,1],[[1,2]],[1,1],[]]]]
"""
PUT_BESIDE_A_DROP = DROPPED + """
1 ["put",3,[[1,2]],[1,1],[],[["x",6]]] -> ["taken",5,[[[1,3]],[[2,1]]]]
1 ["show",[1,1]] -> ["versions",6,[1,1],"rect",[[[[1,3]],[["x",6]]],[[[2,1]],"gone"]]]
2 ["put",2,[[1,3],[2,1]],[1,1],[[2,1]],[["x",7]]] -> ["no",6,18,"gone"]
2 ["put",2,[[1,3],[2,1]],[1,1],[[1,3]],[["x",7]]] -> ["taken",6,[[[1,3],[2,2]],[[2,1]]]]
"""
ONE_OF_TWO_DROPPED = TWO_VERSIONS + """
1 ["drop",3,[[1,2],[2,1]],[1,1],[[2,1]]] -> ["taken",5,[[[1,2]],[[1,3],[2,1]]]]
1 ["show",[1,1]] -> ["versions",6,[1,1],"rect",[[[[1,2]],[["x",5]]],[[[1,3],[2,1]],"gone"]]]
"""
DROPPED_TWICE = ONE_PUT + """
3 ["join","r"] -> ["joined",4,3]
2 ["drop",1,[[1,2]],[1,1],[]] -> ["taken",5,[[]]]
3 ["drop",1,[[1,2]],[1,1],[]] -> ["taken",6,[[]]]
1 ["show",[1,1]] -> ["versions",7,[1,1],"rect",[[[],"gone"]]]
"""

ROWS = [
    ("a join", JOINED),
    ("a creation", CREATED),
    ("an object is shown", SHOWN),
    ("a put", ONE_PUT),
    ("a conflict makes two versions", TWO_VERSIONS),
    ("a put in both versions", IN_BOTH),
    ("a conflict is inherited", INHERITED),
    ("five sites make six versions", SIX_VERSIONS),
    ("the same value is no conflict", SAME_VALUE),
    ("refusals of what was seen", NOT_SEEN_RIGHT),
    ("two rooms", TWO_ROOMS),
    ("no such room, and in no room", NOT_THERE),
    ("bad messages and refusals", NO_REQUESTS),
    ("pages, leaving and joining anew", PAGES),
    ("pages of the record, and the same ones again", PAGES_OF_THE_RECORD),
    ("waits, answered as pulls", WAITS),
    ("notes of sites that are in", NOTES),
    ("a value that was replaced", REPLACED),
    ("letters of all kinds", OTHER_LETTERS),
    ("two that agree against one", TWO_AGAINST_ONE),
    ("a version as its author saw it", AS_THE_AUTHOR_SAW),
    ("a conflict with a base", AGAINST_A_BASE),
    ("one of two versions goes on", ONE_GOES_ON),
    ("other operations of an author count", OTHER_OPERATIONS),
    ("the last value of each key, in order of the keys", LAST_VALUES),
    ("creations that are refused, and others", CREATIONS),
    ("the first cause decides", FIRST_CAUSE),
    ("names of no group of what the author knew, and of one", NAMES_OF_NO_GROUP),
    ("a put of two keys that goes with another", TWO_KEYS),
    ("a put that conflicts by its second key", SECOND_KEY_CONFLICTS),
    ("the old form of one key", OLD_FORM),
    ("puts and drops that are none", NO_PUTS),
    ("a version is dropped", DROPPED),
    ("a put beside a drop", PUT_BESIDE_A_DROP),
    ("one of two versions is dropped", ONE_OF_TWO_DROPPED),
    ("two drop the same version", DROPPED_TWICE),
    ("two rooms in turn", IN_TURN),
    ("a client leaves, and joins another room under a new site", TO_ANOTHER_ROOM),
    ("clients come back as sites that nobody is in as", BACK),
    ("clients that can't come back", NOT_BACK),
    ("clients come back to two rooms", BACK_IN_TWO_ROOMS),
    ("rooms of three sizes", THREE_SIZES),
]

# A script answers at once what the server holds.
ROWS_OF_SCRIPTS = [*ROWS, ("a wait for more", WAIT_FOR_MORE)]


def lines_of(rows):
    """Yields the client, the request and the reply of each line."""
    for line in filter(None, rows.split("\n")):
        client, rest = line.split(" ", 1)
        request, reply = rest.rsplit(" -> ", 1)
        yield int(client), request, reply


def rooms_of(rows):
    """Returns the rooms that the clients use."""
    return [room for room in "abcr" if f'"{room}"' in rows]
